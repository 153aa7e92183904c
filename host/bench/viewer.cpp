// Nanoseconds a walk over a read text: by our viewer, beside a walk over cJSON's tree.
//
//     viewer FOLDER [ROUNDS]   FOLDER has record-300.json and record-15k.json
//
// Each number is the least of all rounds. A walk asks for the kind and the count of each value, the place of each part,
// the name of each member, and each integer and string; it adds up lengths and integers. Both must come to the same sum.
// The texts are read before, outside the measured time.
#include "jehvrukam.h"
#include "measure.h"
#include "texts.h"

#include <cjson/cJSON.h>

#include <cstdio>
#include <cstring>
#include <memory>
#include <string>
#include <vector>

namespace {

struct Read {
    std::vector<uint8_t> table, strings;
    cJSON *tree;
};

// ---- the two walks

int64_t walk_ours(const std::vector<uint8_t> &table, uint64_t place, bool is_member)
{
    uint64_t kind, count, start, length = 0, part;
    int64_t value = 0, sum = 1;
    if (is_member && jehvrukam_view_name(table.data(), table.size(), place, &start, &length) == JEHVRUKAM_DONE)
        sum += static_cast<int64_t>(length);
    if (jehvrukam_view(table.data(), table.size(), place, &kind, &count) != JEHVRUKAM_DONE)
        return -1;
    if (kind == JEHVRUKAM_INTEGER) {
        jehvrukam_view_integer(table.data(), table.size(), place, &value);
        sum += value;
    } else if (kind == JEHVRUKAM_STRING) {
        jehvrukam_view_string(table.data(), table.size(), place, &start, &length);
        sum += static_cast<int64_t>(length);
    }
    for (uint64_t nth = 0; nth < count; nth++) {
        jehvrukam_view_part(table.data(), table.size(), place, nth, &part);
        sum += walk_ours(table, part, kind == JEHVRUKAM_OBJECT);
    }
    return sum;
}

int64_t walk_cjson(const cJSON *value)
{
    int64_t sum = 1;
    if (value->string != nullptr)
        sum += static_cast<int64_t>(std::strlen(value->string));
    if (cJSON_IsNumber(value))
        sum += static_cast<int64_t>(value->valuedouble);
    else if (cJSON_IsString(value))
        sum += static_cast<int64_t>(std::strlen(value->valuestring));
    for (const cJSON *part = value->child; part != nullptr; part = part->next)
        sum += walk_cjson(part);
    return sum;
}

// ---- the lines

struct Line {
    std::string name;
    Measurement ours, cjson;
};

std::vector<Line> lines;

void add(const std::string &name, const std::string &text)
{
    auto read = std::make_shared<Read>();
    read->table.resize(JEHVRUKAM_TABLE_BYTES);
    read->strings.resize(JEHVRUKAM_STRINGS_BYTES);
    uint64_t place;
    if (jehvrukam_read(reinterpret_cast<const uint8_t *>(text.data()), text.size(), read->table.data(), read->table.size(),
                       read->strings.data(), read->strings.size(), &place) != JEHVRUKAM_DONE ||
        (read->tree = cJSON_ParseWithLength(text.data(), text.size())) == nullptr) {
        std::fprintf(stderr, "%s: not read\n", name.c_str());
        std::exit(1);
    }
    const int64_t sum = walk_cjson(read->tree);
    lines.push_back({name, Measurement([read, sum] { return walk_ours(read->table, 0, false) == sum; }),
                     Measurement([read, sum] { return walk_cjson(read->tree) == sum; })});
}

} // namespace

int main(int argc, char **argv)
{
    Arguments given(argc, argv);
    add("record-300.json, 24 values", given.record("record-300.json"));
    add("record-15k.json, 999 values", given.record("record-15k.json"));
    add("an array of 31, 31 times", "[" + repeated("[" + repeated("1,", 30) + "1],", 30) + "[" + repeated("1,", 30) + "1]]");
    add("an array of 1,023", "[" + repeated("1,", 1022) + "1]");

    for (Line &line : lines)
        if (!line.ours.prepare() || !line.cjson.prepare()) {
            std::fprintf(stderr, "%s: not as expected\n", line.name.c_str());
            return 1;
        }
    for (int round = 0; round < given.rounds; round++)
        for (Line &line : lines) {
            line.ours.measure();
            line.cjson.measure();
        }

    std::printf("nanoseconds a walk over a read text, least of %d rounds\n%-36s %11s %11s %8s\n", given.rounds, "",
                "jehvrukam", "cJSON", "ratio");
    for (const Line &line : lines)
        std::printf("%-36s %11.0f %11.0f %8.1f\n", line.name.c_str(), line.ours.best, line.cjson.best,
                    line.ours.best / line.cjson.best);
    return 0;
}
