// Nanoseconds of an evaluation: a whole admission beside the same rule by hand, and the dearest inputs that are known.
//
//     evaluate FOLDER [ROUNDS]   FOLDER has rule-300.json and record-300.json
//
// Each number is the least of all rounds; a round goes through all lines. Ours is one call of jehvrukam_evaluate, from
// two texts to the answer's text, with all areas as long as stated and an output of 16,384 bytes; it clears what it
// does not use of them. By hand means C over a tree of cJSON, which is parsed and freed each time; dates by strptime
// and timegm, the bounds of the rule as constants. The variant parses the rule's text too, and makes nothing of it. All
// must admit the record and not one of another job, or nothing is measured.
#include "jehvrukam.h"
#include "measure.h"
#include "rules.h"
#include "texts.h"

#include <cjson/cJSON.h>

#include <cinttypes>
#include <cstdio>
#include <cstring>
#include <ctime>
#include <string>
#include <vector>

namespace {

uint8_t rule_table[JEHVRUKAM_TABLE_BYTES], rule_strings[JEHVRUKAM_STRINGS_BYTES];
uint8_t record_table[JEHVRUKAM_TABLE_BYTES], record_strings[JEHVRUKAM_STRINGS_BYTES];
uint8_t cells[JEHVRUKAM_CELLS_BYTES], output[JEHVRUKAM_MAX_TEXT_BYTES];

// ---- ours

uint64_t steps, length;

uint32_t evaluate(const std::string &rule, const std::string &record)
{
    uint64_t which, place;
    return jehvrukam_evaluate(reinterpret_cast<const uint8_t *>(rule.data()), rule.size(),
                              reinterpret_cast<const uint8_t *>(record.data()), record.size(), JEHVRUKAM_MAX_STEPS,
                              rule_table, sizeof rule_table, rule_strings, sizeof rule_strings, record_table,
                              sizeof record_table, record_strings, sizeof record_strings, cells, sizeof cells, output,
                              sizeof output, &which, &place, &steps, &length);
}

bool admits(const std::string &rule, const std::string &record)
{
    return evaluate(rule, record) == JEHVRUKAM_DONE && length == 4 && std::memcmp(output, "true", 4) == 0;
}

bool read_both(const std::string &rule, const std::string &record)
{
    uint64_t place;
    return jehvrukam_read(reinterpret_cast<const uint8_t *>(rule.data()), rule.size(), rule_table, sizeof rule_table,
                          rule_strings, sizeof rule_strings, &place) == JEHVRUKAM_DONE &&
           jehvrukam_read(reinterpret_cast<const uint8_t *>(record.data()), record.size(), record_table,
                          sizeof record_table, record_strings, sizeof record_strings, &place) == JEHVRUKAM_DONE;
}

bool clear_all()
{
    std::memset(rule_table, 0, sizeof rule_table);
    std::memset(rule_strings, 0, sizeof rule_strings);
    std::memset(record_table, 0, sizeof record_table);
    std::memset(record_strings, 0, sizeof record_strings);
    std::memset(cells, 0, sizeof cells);
    std::memset(output, 0, sizeof output);
    asm volatile("" : : "r"(rule_table), "r"(rule_strings), "r"(record_table), "r"(record_strings), "r"(cells),
                 "r"(output) : "memory");
    return true;
}

// ---- the rule of rule-300.json by hand

bool is_text(const cJSON *value, const char *text)
{
    return cJSON_IsString(value) && std::strcmp(value->valuestring, text) == 0;
}

// Of a text such as 2026-11-15T09:30:00.000Z.
bool milliseconds(const cJSON *value, int64_t *ms)
{
    tm parts = {};
    const char *at = cJSON_IsString(value) ? strptime(value->valuestring, "%Y-%m-%dT%H:%M:%S", &parts) : nullptr;
    int fraction;
    if (at == nullptr || std::strlen(at) != 5 || std::sscanf(at, ".%3dZ", &fraction) != 1)
        return false;
    *ms = static_cast<int64_t>(timegm(&parts)) * 1000 + fraction;
    return true;
}

bool is_admitted(const cJSON *record)
{
    const int64_t from = INT64_C(1794733200000), hour = 3600000; // 2026-11-15T09:00:00Z
    auto member = [record](const char *name) { return cJSON_GetObjectItemCaseSensitive(record, name); };
    const cJSON *job = member("job"), *queue = member("queue");
    int64_t launch;
    return is_text(member("key"), "9f86d081884c7d659a2feaa0c55ad015") && cJSON_IsNumber(job) &&
           job->valuedouble == 4711 && (is_text(queue, "batch") || is_text(queue, "long")) &&
           milliseconds(member("launch"), &launch) && from <= launch && launch <= from + hour;
}

bool admits_by_hand(const std::string &record)
{
    cJSON *tree = cJSON_ParseWithLength(record.data(), record.size());
    bool admitted = tree != nullptr && is_admitted(tree);
    cJSON_Delete(tree);
    return admitted;
}

bool admits_by_hand_with_rule(const std::string &rule, const std::string &record)
{
    cJSON *tree = cJSON_ParseWithLength(rule.data(), rule.size());
    bool admitted = tree != nullptr && admits_by_hand(record);
    cJSON_Delete(tree);
    return admitted;
}

// ---- the lines of the first table: one admission

struct Way {
    const char *name;
    std::function<bool(const std::string &)> admit; // by a record's text
    Measurement measurement;
};

std::vector<Way> ways;

void add_way(const char *name, std::function<bool(const std::string &)> admit, const std::string &record)
{
    ways.push_back({name, admit, Measurement([admit, record] { return admit(record); })});
}

// The record with another job, which no way must admit.
std::string with_another_job(std::string record)
{
    size_t at = record.find("4711");
    return at == std::string::npos ? "" : record.replace(at, 4, "4712");
}

// ---- the lines of the second table: dear inputs

struct Line {
    std::string name;
    size_t rule_bytes, record_bytes;
    Measurement measurement;
    uint64_t steps;
};

std::vector<Line> lines;

void add(const std::string &name, const std::string &rule, const std::string &record, uint32_t refusal = JEHVRUKAM_DONE)
{
    lines.push_back({name, rule.size(), record.size(),
                     Measurement([rule, record, refusal] { return evaluate(rule, record) == refusal; }), 0});
}

void add_dear_inputs()
{
    const std::string current = var("current"), accumulator = var("accumulator");
    const std::string deep = "[" + repeated(repeated("[", 31) + repeated("]", 31) + ",", 32) + "0]";
    add("an empty rule, refused", "", "0", JEHVRUKAM_NOT_JSON);
    add("a literal", "1", "0");
    add("1,000 literals", list_of("1", 999), "0");
    add("332 sums", "[" + reduce(var(""), apply("+", "[" + current + "," + accumulator + "]"), "0") + "]",
        list_of("1", 332));
    add("a list that doubles 332 times", "[" + reduce(var(""), list_of(accumulator, 2), "0") + "]", list_of("1", 332),
        JEHVRUKAM_ANSWER_TOO_LARGE);
    add("a rule of arrays 32 deep, 32 times", deep, "0");
    add("arrays 32 deep, 32 times, as they are", var(""), deep);
    add("an object of 1,023 members, as it is", var(""), members_alike(1023));
    add("the longest answer, of control characters", var(""), quoted(repeated("\\u0001", 2730)));
    add("rule and record of 16,384 bytes of white space", repeated(" ", 16383) + "1", repeated(" ", 16383) + "1");

    const std::string shift = apply("plusTime", "[\"9999-12-31T23:59:59.999999999-00:00\",-9999,\"year\"]");
    add("492 shifts by 9999 years", reduce("[1,2,3,4]", list_of(shift, 123), "0"), "0");
    add("992 paths to the last of 1,022 items", for_copies(2, apply("and", list_of(var("current.1021"), 496))),
        list_of("1", 1022));
    add("992 paths to the last of 511 items with parts",
        for_copies(2, apply("and", list_of(var("current.510"), 496))), list_of("[1]", 511));
    add("992 paths to the last of 1,023 members",
        for_copies(2, apply("and", list_of(var("current." + alike(1022)), 496))), members_alike(1023));

    // Contexts within contexts, and paths that go all the way down.
    const std::string down = var("accumulator" + repeated(".accumulator", 399));
    add("297 paths through 400 contexts",
        reduce(var("a"), apply("if", "[" + list_of(down, 3) + "," + accumulator + ",0]"),
               reduce(var("b"), var(""), "0")),
        "{\"a\":" + list_of("1", 99) + ",\"b\":" + list_of("1", 401) + "}", JEHVRUKAM_ANSWER_TOO_LARGE);

    // Strings that differ at their ends only, and what is not among them.
    add("330 times whether a string is among 1,022",
        for_copies(2, list_of(apply("in", "[" + quoted(alike(1022)) + "," + current + "]"), 165)), strings_alike(1022));
    const std::string both = "[" + var("current.0") + "," + var("current.1") + "]";
    const std::string xs = repeated("x", 4000);
    add("328 times whether a string is among 3 of 4,001 bytes", for_copies(4, list_of(apply("in", both), 82)),
        "[" + quoted(xs + "a") + "," + list_of(quoted(xs + "b"), 3) + "]");
    add("328 times whether two strings of 8,001 are equal", for_copies(4, list_of(apply("===", both), 82)),
        "[" + quoted(xs + xs + "a") + "," + quoted(xs + xs + "b") + "]");

    // A fragment that is not there, of a string without a separator, and of separators only.
    const std::string extract = apply("extractFromUVCI", "[" + current + ",99999]");
    add("490 UVCIs of one fragment", for_copies(5, list_of(extract, 98)), quoted(repeated("x", 16382)));
    add("490 UVCIs of 16,383 fragments", for_copies(5, list_of(extract, 98)), quoted(repeated(":", 16382)));
}

} // namespace

int main(int argc, char **argv)
{
    Arguments given(argc, argv);
    const std::string rule = given.record("rule-300.json"), record = given.record("record-300.json");
    add_way("jehvrukam_evaluate", [rule](const std::string &text) { return admits(rule, text); }, record);
    add_way("by hand over cJSON", [](const std::string &text) { return admits_by_hand(text); }, record);
    add_way("by hand, the rule parsed too",
            [rule](const std::string &text) { return admits_by_hand_with_rule(rule, text); }, record);
    Measurement reading([rule, record] { return read_both(rule, record); }), clearing(clear_all);
    add_dear_inputs();

    const std::string other = with_another_job(record);
    for (Way &way : ways)
        if (!way.measurement.prepare() || way.admit(other)) {
            std::fprintf(stderr, "%s: the record is not admitted, or another one is\n", way.name);
            return 1;
        }
    admits(rule, record);
    const uint64_t admission_steps = steps;
    reading.prepare();
    clearing.prepare();
    for (Line &line : lines) {
        bool as_expected = line.measurement.prepare();
        line.steps = steps;
        if (!as_expected) {
            std::fprintf(stderr, "%s: not as expected, after %" PRIu64 " steps\n", line.name.c_str(), steps);
            return 1;
        }
    }
    for (int round = 0; round < given.rounds; round++) {
        for (Way &way : ways)
            way.measurement.measure();
        reading.measure();
        clearing.measure();
        for (Line &line : lines)
            line.measurement.measure();
    }

    const double admission = ways.front().measurement.best;
    std::printf("nanoseconds an admission (rule of %zu bytes, record of %zu, %" PRIu64 " steps), least of %d rounds\n",
                rule.size(), record.size(), admission_steps, given.rounds);
    for (const Way &way : ways)
        std::printf("%-50s %11.0f %8.2f\n", way.name, way.measurement.best, way.measurement.best / admission);
    std::printf("%-50s %11.0f %8.2f\n", "reading both texts alone", reading.best, reading.best / admission);
    std::printf("%-50s %11.0f %8.2f\n", "clearing the same areas by memset", clearing.best, clearing.best / admission);
    std::printf("nanoseconds an evaluation, and as a multiple of the admission\n%-50s %11s %8s %6s %6s %6s\n", "",
                "jehvrukam", "ratio", "steps", "rule", "record");
    for (const Line &line : lines)
        std::printf("%-50s %11.0f %8.1f %6" PRIu64 " %6zu %6zu\n", line.name.c_str(), line.measurement.best,
                    line.measurement.best / admission, line.steps, line.rule_bytes, line.record_bytes);
    return 0;
}
