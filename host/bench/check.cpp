// Nanoseconds of a check and of a fit: beside the same by hand, and the dearest inputs that are known.
//
//     check FOLDER [ROUNDS]   FOLDER has rule-1k.json, sheet-1k.json and record-1k.json
//
// Each number is the least of all rounds; a round goes through all lines. Ours is one call of jehvrukam_check or
// jehvrukam_fits, with all areas as long as stated; it clears what it does not use of them. By hand means C over trees
// of cJSON, which are parsed and freed each time: the words of a path are looked up in the sheet's tree, dates are read
// by strptime. It takes the shape of rule and sheet on trust. All ways must find the same words, and none under a sheet
// with another word; all must say that the record fits and that another one does not; or nothing is measured.
#include "jehvrukam.h"
#include "measure.h"
#include "rules.h"
#include "texts.h"

#include <cjson/cJSON.h>

#include <cinttypes>
#include <cstdio>
#include <cstring>
#include <ctime>
#include <string>
#include <vector>

namespace {

uint8_t first_table[JEHVRUKAM_TABLE_BYTES], first_strings[JEHVRUKAM_STRINGS_BYTES];
uint8_t second_table[JEHVRUKAM_TABLE_BYTES], second_strings[JEHVRUKAM_STRINGS_BYTES];

const uint8_t *bytes_of(const std::string &text)
{
    return reinterpret_cast<const uint8_t *>(text.data());
}

// ---- ours

uint32_t refusal; // of the last call

// The words; 0 if the rule is refused.
uint64_t check(const std::string &rule, const std::string &sheet)
{
    uint64_t which, place, words;
    refusal = jehvrukam_check(bytes_of(rule), rule.size(), bytes_of(sheet), sheet.size(), first_table,
                              sizeof first_table, first_strings, sizeof first_strings, second_table,
                              sizeof second_table, second_strings, sizeof second_strings, &which, &place, &words);
    return words;
}

// 1 if it fits, 0 if not, or if a text is refused.
uint64_t fits(const std::string &sheet, const std::string &record)
{
    uint64_t which, place, answer;
    refusal = jehvrukam_fits(bytes_of(sheet), sheet.size(), bytes_of(record), record.size(), first_table,
                             sizeof first_table, first_strings, sizeof first_strings, second_table,
                             sizeof second_table, second_strings, sizeof second_strings, &which, &place, &answer);
    return answer;
}

bool read_both(const std::string &one, const std::string &other)
{
    uint64_t place;
    return jehvrukam_read(bytes_of(one), one.size(), first_table, sizeof first_table, first_strings,
                          sizeof first_strings, &place) == JEHVRUKAM_DONE &&
           jehvrukam_read(bytes_of(other), other.size(), second_table, sizeof second_table, second_strings,
                          sizeof second_strings, &place) == JEHVRUKAM_DONE;
}

bool clear_all()
{
    std::memset(first_table, 0, sizeof first_table);
    std::memset(first_strings, 0, sizeof first_strings);
    std::memset(second_table, 0, sizeof second_table);
    std::memset(second_strings, 0, sizeof second_strings);
    asm volatile("" : : "r"(first_table), "r"(first_strings), "r"(second_table), "r"(second_strings) : "memory");
    return true;
}

// ---- by hand

const uint64_t NULL_WORD = JEHVRUKAM_WORD_NULL, BOOLEAN = JEHVRUKAM_WORD_BOOLEAN, INTEGER = JEHVRUKAM_WORD_INTEGER,
               STRING = JEHVRUKAM_WORD_STRING, DATE = JEHVRUKAM_WORD_DATE, DAY = JEHVRUKAM_WORD_DAY,
               INTEGERS = JEHVRUKAM_WORD_INTEGERS, STRINGS = JEHVRUKAM_WORD_STRINGS, ARRAY = JEHVRUKAM_WORD_ARRAY,
               OBJECT = JEHVRUKAM_WORD_OBJECT, INSTANT = JEHVRUKAM_WORD_INSTANT;
const uint64_t SCALARS = NULL_WORD | BOOLEAN | INTEGER | STRING, ANYTHING = SCALARS | ARRAY | OBJECT;

bool is_day(const char *text)
{
    for (const char *form : {"%Y-%m-%d", "%Y-%m", "%Y"}) {
        tm parts = {};
        const char *end = strptime(text, form, &parts);
        if (end != nullptr && *end == 0)
            return true;
    }
    return false;
}

// The fraction and the offset are passed over.
bool is_date(const char *text)
{
    tm parts = {};
    return is_day(text) || strptime(text, "%Y-%m-%dT%H:%M:%S", &parts) != nullptr;
}

// The listed words of a member of the sheet.
uint64_t listed_words(const cJSON *member)
{
    static const char *const spelled[] = {"null", "boolean", "integer", "string", "date", "day", "integers", "strings",
                                          "array", "object"};
    uint64_t words = 0;
    for (const cJSON *word = member->child; word != nullptr; word = word->next)
        for (unsigned i = 0; i < sizeof spelled / sizeof *spelled; i++)
            if (std::strcmp(word->valuestring, spelled[i]) == 0)
                words |= UINT64_C(1) << i;
    return words;
}

bool pass(uint64_t words, uint64_t allowed)
{
    if (allowed & STRING)
        allowed |= DATE | DAY;
    if (allowed & DATE)
        allowed |= DAY;
    if (allowed & ARRAY)
        allowed |= INTEGERS | STRINGS;
    return (words & ~allowed) == 0;
}

struct Scope {
    const cJSON *sheet; // null in a lambda
    uint64_t current, accumulator;

    uint64_t path(const char *path) const
    {
        if (sheet != nullptr) {
            const cJSON *member = cJSON_GetObjectItemCaseSensitive(sheet, path);
            return member != nullptr ? listed_words(member) : ANYTHING;
        }
        if (std::strcmp(path, "current") == 0)
            return current;
        if (std::strcmp(path, "accumulator") == 0)
            return accumulator;
        if (std::strncmp(path, "current.", 8) == 0 || std::strncmp(path, "accumulator.", 12) == 0)
            return ANYTHING | INSTANT;
        return *path == 0 ? OBJECT : NULL_WORD;
    }

    // 0 if the rule is not accepted.
    uint64_t check(const cJSON *rule) const
    {
        if (cJSON_IsBool(rule))
            return BOOLEAN;
        if (cJSON_IsNumber(rule))
            return INTEGER;
        if (cJSON_IsString(rule))
            return is_day(rule->valuestring) ? DAY : is_date(rule->valuestring) ? DATE : STRING;
        if (cJSON_IsArray(rule)) {
            bool integers = true, strings = true;
            for (const cJSON *item = rule->child; item != nullptr; item = item->next) {
                uint64_t words = check(item);
                if (words == 0)
                    return 0;
                integers = integers && words == INTEGER;
                strings = strings && pass(words, STRING);
            }
            return integers ? INTEGERS : strings ? STRINGS : ARRAY;
        }
        return operation(rule->child->string, rule->child);
    }

    uint64_t operation(const std::string &name, const cJSON *operands) const
    {
        if (name == "var")
            return path(operands->valuestring);
        if (name == "reduce")
            return reduce(operands->child);
        uint64_t words[8], all = 0, last = 0;
        int count = 0;
        bool bare = name == "plusTime" || name == "extractFromUVCI";
        for (const cJSON *operand = operands->child; operand != nullptr && count < (bare ? 1 : 8);
             operand = operand->next) {
            if ((last = words[count++] = check(operand)) == 0)
                return 0;
            all |= last;
        }
        if (name == "and")
            return all & INSTANT ? 0 : rest(operands, all);
        if (name == "if")
            return words[1] | words[2];
        if (name == "!")
            return all & INSTANT ? 0 : BOOLEAN;
        if (name == "===")
            return pass(all, SCALARS) ? BOOLEAN : 0;
        if (name == "in")
            return pass(words[0], SCALARS) && pass(words[1], ARRAY) ? BOOLEAN : 0;
        if (name == "+")
            return pass(all, INTEGER) ? INTEGER : 0;
        if (name == "plusTime")
            return pass(all, DATE) ? INSTANT : 0;
        if (name == "dccDateOfBirth")
            return pass(all, DAY) ? INSTANT : 0;
        if (name == "extractFromUVCI")
            return pass(all, NULL_WORD | STRING) ? NULL_WORD | STRING : 0;
        bool dates = name == "after" || name == "before" || name == "not-after" || name == "not-before";
        return pass(all, dates ? INSTANT : INTEGER) ? BOOLEAN : 0;
    }

    // What `and` has beyond eight operands.
    uint64_t rest(const cJSON *operands, uint64_t all) const
    {
        int count = 0;
        for (const cJSON *operand = operands->child; operand != nullptr; operand = operand->next)
            if (count++ >= 8) {
                uint64_t words = check(operand);
                if (words == 0 || words & INSTANT)
                    return 0;
                all |= words;
            }
        return all;
    }

    uint64_t reduce(const cJSON *operand) const
    {
        uint64_t list = check(operand), initial = check(operand->next->next);
        if (list == 0 || initial == 0 || !pass(list, ARRAY))
            return 0;
        uint64_t items = (list & INTEGERS ? INTEGER : 0) | (list & STRINGS ? STRING : 0) |
                         (list & ARRAY ? ANYTHING | INSTANT : 0);
        uint64_t lambda = Scope{nullptr, items, initial}.check(operand->next);
        return lambda != 0 && pass(lambda, initial) ? initial : 0;
    }
};

uint64_t check_by_hand(const std::string &rule, const std::string &sheet)
{
    cJSON *rule_tree = cJSON_ParseWithLength(rule.data(), rule.size());
    cJSON *sheet_tree = cJSON_ParseWithLength(sheet.data(), sheet.size());
    uint64_t words = 0;
    if (rule_tree != nullptr && sheet_tree != nullptr)
        words = Scope{sheet_tree, 0, 0}.check(rule_tree);
    cJSON_Delete(rule_tree);
    cJSON_Delete(sheet_tree);
    return words;
}

bool parse_both(const std::string &one, const std::string &other)
{
    cJSON *one_tree = cJSON_ParseWithLength(one.data(), one.size());
    cJSON *other_tree = cJSON_ParseWithLength(other.data(), other.size());
    bool parsed = one_tree != nullptr && other_tree != nullptr;
    cJSON_Delete(one_tree);
    cJSON_Delete(other_tree);
    return parsed;
}

// The words that a value belongs to.
uint64_t words_of(const cJSON *value)
{
    if (value == nullptr || cJSON_IsNull(value))
        return NULL_WORD;
    if (cJSON_IsBool(value))
        return BOOLEAN;
    if (cJSON_IsNumber(value))
        return INTEGER;
    if (cJSON_IsString(value))
        return STRING | (is_date(value->valuestring) ? DATE : 0) | (is_day(value->valuestring) ? DAY : 0);
    if (cJSON_IsObject(value))
        return OBJECT;
    uint64_t words = ARRAY | INTEGERS | STRINGS;
    for (const cJSON *item = value->child; item != nullptr; item = item->next) {
        if (!cJSON_IsNumber(item))
            words &= ~INTEGERS;
        if (!cJSON_IsString(item))
            words &= ~STRINGS;
    }
    return words;
}

const cJSON *value_at(const cJSON *value, std::string path)
{
    char *rest = &path[0];
    for (char *fragment = strtok_r(rest, ".", &rest); fragment != nullptr && value != nullptr;
         fragment = strtok_r(nullptr, ".", &rest)) {
        if (cJSON_IsArray(value))
            value = cJSON_GetArrayItem(value, std::atoi(fragment));
        else
            value = cJSON_GetObjectItemCaseSensitive(value, fragment);
    }
    return value;
}

uint64_t fits_by_hand(const std::string &sheet, const std::string &record)
{
    cJSON *sheet_tree = cJSON_ParseWithLength(sheet.data(), sheet.size());
    cJSON *record_tree = cJSON_ParseWithLength(record.data(), record.size());
    bool fits = sheet_tree != nullptr && record_tree != nullptr;
    for (const cJSON *member = fits ? sheet_tree->child : nullptr; member != nullptr && fits; member = member->next)
        fits = (listed_words(member) & words_of(value_at(record_tree, member->string))) != 0;
    cJSON_Delete(sheet_tree);
    cJSON_Delete(record_tree);
    return fits;
}

// ---- the lines

struct Line {
    std::string name;
    size_t first_bytes, second_bytes;
    Measurement measurement;
};

std::vector<Line> lines;

typedef uint64_t (*Way)(const std::string &, const std::string &);

// A way on two texts, which is to answer this; the same way is to answer 0 on the other two texts.
void add_way(const char *name, Way way, const std::string &one, const std::string &other, uint64_t answer,
             const std::string &bad_one, const std::string &bad_other)
{
    if (way(bad_one, bad_other) != 0) {
        std::fprintf(stderr, "%s: what is not good is taken\n", name);
        std::exit(1);
    }
    lines.push_back({name, one.size(), other.size(),
                     Measurement([way, one, other, answer] { return way(one, other) == answer; })});
}

void add(const char *name, Way way, const std::string &one, const std::string &other, uint64_t answer,
         uint32_t expected = JEHVRUKAM_DONE)
{
    lines.push_back({name, one.size(), other.size(), Measurement([way, one, other, answer, expected] {
                         return way(one, other) == answer && refusal == expected;
                     })});
}

std::string with(std::string text, const std::string &old, const std::string &other)
{
    size_t at = text.find(old);
    return at == std::string::npos ? "" : text.replace(at, old.size(), other);
}

// A sheet of 256 members, named by a beginning and a number of three digits; the last one has these words besides.
std::string sheet_of(const std::string &before, const std::string &words, const std::string &besides = "")
{
    std::string text = "{";
    char digits[8];
    for (unsigned i = 0; i < 256; i++) {
        std::snprintf(digits, sizeof digits, "%03u", i);
        text += (i ? "," : "") + quoted(before + digits) + ":[" + words + (i == 255 ? besides : "") + "]";
    }
    return text + "}";
}

// A sheet of 256 names that are alike: of the last of 1,023 members, or of none of them.
std::string sheet_alike(bool members, const std::string &words)
{
    std::string text = "{";
    for (unsigned i = 0; i < 256; i++) {
        const std::string other = std::string("name-name") + char('A' + i / 16) + char('A' + i % 16);
        text += (i ? "," : "") + quoted(members ? alike(767 + i) : other) + ":[" + words + "]";
    }
    return text + "}";
}

// A record of 256 members, named as in a sheet.
std::string record_of(const std::string &before, const std::string &content)
{
    std::string text = "{";
    char digits[8];
    for (unsigned i = 0; i < 256; i++) {
        std::snprintf(digits, sizeof digits, "%03u", i);
        text += (i ? "," : "") + quoted(before + digits) + ":" + content;
    }
    return text + "}";
}

void add_dear_inputs()
{
    const std::string day = quoted("day"), none = "{}";
    add("check: a literal, an empty sheet", check, "1", none, INTEGER);
    add("check: an empty rule, refused", check, "", none, 0, JEHVRUKAM_NOT_JSON);
    add("check: 1,023 literals", check, list_of("1", 1023), none, INTEGERS);
    add("check: 600 date texts", check, list_of(quoted("2020-01-31T10:20:30.000Z"), 600), none, STRINGS);
    add("check: 15 sums, each within the next, 21 times", check,
        list_of(repeated("{\"+\":[1,", 15) + "1" + repeated("]}", 15), 21), none, INTEGERS);

    // Paths that are listed last, or not at all, and differ from what is listed at their ends only.
    const std::string name = "name-name-name-";
    add("check: 511 paths, listed last of 256", check, list_of(var(name + "255"), 511), sheet_of(name, day), STRINGS);
    const std::string others = ",\"null\",\"boolean\",\"integer\",\"string\",\"date\",\"integers\",\"strings\","
                               "\"array\",\"object\"";
    add("check: 511 paths, listed last of 256, ten words", check, list_of(var(name + "255"), 511),
        sheet_of(name, day, others), ARRAY);
    add("check: 511 paths, not among 256", check, list_of(var(name + "999"), 511), sheet_of(name, day), ARRAY);
    const std::string longer(47, 'n');
    add("check: 262 longer paths, not among 256", check, list_of(var(longer + "999"), 262), sheet_of(longer, day),
        ARRAY);

    add("fits: an empty sheet, a literal", fits, none, "1", 1);
    add("fits: 256 of 1,023 members", fits, sheet_alike(true, quoted("integer")), members_alike(1023), 1);
    add("fits: 256 paths, not among 1,023 members", fits, sheet_alike(false, quoted("null")), members_alike(1023), 1);
    add("fits: 256 date texts", fits, sheet_of("n", "\"day\",\"date\""),
        record_of("n", quoted("2020-01-31T10:20:30.123456789+05:30")), 1);
    add("fits: an array of 900 integers, 31 deep", fits,
        "{" + quoted("a" + repeated(".a", 30)) + ":[\"strings\",\"integers\"]}",
        repeated("{\"a\":", 31) + list_of("1", 900) + repeated("}", 31), 1);
}

} // namespace

int main(int argc, char **argv)
{
    Arguments given(argc, argv);
    const std::string rule = given.record("rule-1k.json"), sheet = given.record("sheet-1k.json");
    const std::string record = given.record("record-1k.json");
    const std::string other_sheet = with(sheet, "\"session.quota\":[\"integers\"]", "\"session.quota\":[\"strings\"]");
    const std::string other_record = with(record, "\"rank\":17", "\"rank\":\"17\"");
    add_way("jehvrukam_check", check, rule, sheet, BOOLEAN, rule, other_sheet);
    add_way("check by hand over cJSON", check_by_hand, rule, sheet, BOOLEAN, rule, other_sheet);
    lines.push_back({"reading rule and sheet alone (jehvrukam_read)", rule.size(), sheet.size(),
                     Measurement([rule, sheet] { return read_both(rule, sheet); })});
    lines.push_back({"parsing rule and sheet alone (cJSON)", rule.size(), sheet.size(),
                     Measurement([rule, sheet] { return parse_both(rule, sheet); })});
    add_way("jehvrukam_fits", fits, sheet, record, 1, sheet, other_record);
    add_way("fits by hand over cJSON", fits_by_hand, sheet, record, 1, sheet, other_record);
    lines.push_back({"reading sheet and record alone (jehvrukam_read)", sheet.size(), record.size(),
                     Measurement([sheet, record] { return read_both(sheet, record); })});
    lines.push_back({"parsing sheet and record alone (cJSON)", sheet.size(), record.size(),
                     Measurement([sheet, record] { return parse_both(sheet, record); })});
    lines.push_back({"clearing the same areas by memset", 0, 0, Measurement(clear_all)});
    add_dear_inputs();

    for (Line &line : lines)
        if (!line.measurement.prepare()) {
            std::fprintf(stderr, "%s: not as expected\n", line.name.c_str());
            return 1;
        }
    for (int round = 0; round < given.rounds; round++)
        for (Line &line : lines)
            line.measurement.measure();

    std::printf("nanoseconds of a check or a fit, and as a multiple of the first line; least of %d rounds\n%-50s %11s "
                "%8s %6s %6s\n", given.rounds, "", "ns", "ratio", "first", "second");
    for (const Line &line : lines)
        std::printf("%-50s %11.0f %8.2f %6zu %6zu\n", line.name.c_str(), line.measurement.best,
                    line.measurement.best / lines.front().measurement.best, line.first_bytes, line.second_bytes);
    return 0;
}
