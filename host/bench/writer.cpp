// Nanoseconds to write a value: ours beside rapidjson, cJSON and jansson.
//
//     writer FOLDER [ROUNDS]   FOLDER has record-300.json and record-15k.json
//
// Each number is the least of all rounds; a round goes through all values and libraries. The values are read outside
// the measured time: ours is written from the read form and one cell, a peer's from its tree. Ours is written into an
// output of 16,384 bytes, and what is left of it is cleared in each call. All must give the same text.
#include "jehvrukam.h"
#include "../tests/test_writer.h"
#include "measure.h"
#include "texts.h"

#include <cjson/cJSON.h>
#include <jansson.h>
#include <rapidjson/document.h>
#include <rapidjson/stringbuffer.h>
#include <rapidjson/writer.h>

#include <cstdio>
#include <cstdlib>
#include <cstring>
#include <memory>
#include <string>
#include <vector>

namespace {

enum Tag { INSTANT = 4, RECORD_STRING = 6, ITEMS = 7, MEMBERS = 8, LIST = 9 };

// ---- ours: areas, and the number of a cell

struct Value {
    std::vector<uint8_t> table, strings, cells;
    uint64_t cell;

    Value() : table(JEHVRUKAM_TABLE_BYTES), strings(JEHVRUKAM_STRINGS_BYTES), cell(0) {}

    // One cell more, which is then the one to write.
    void add_cell(Tag tag, uint64_t low, uint64_t high)
    {
        uint64_t bits = low | high << 32 | static_cast<uint64_t>(tag) << 56;
        cell = cells.size() / 8;
        for (int i = 0; i < 8; i++)
            cells.push_back(static_cast<uint8_t>(bits >> 8 * i));
    }
};

// The value of a text that is a string, an array or an object.
std::shared_ptr<Value> value_of(const std::string &text)
{
    std::shared_ptr<Value> value = std::make_shared<Value>();
    uint64_t place;
    if (jehvrukam_read(reinterpret_cast<const uint8_t *>(text.data()), text.size(), value->table.data(),
                       value->table.size(), value->strings.data(), value->strings.size(), &place) != JEHVRUKAM_DONE) {
        std::fprintf(stderr, "a text of %zu bytes does not read\n", text.size());
        std::exit(1);
    }
    const uint8_t *table = value->table.data();
    const size_t table_len = value->table.size();
    uint64_t kind = 0, count = 0, start = 0, length = 0;
    jehvrukam_view(table, table_len, 0, &kind, &count);
    if (jehvrukam_view_string(table, table_len, 0, &start, &length) == JEHVRUKAM_DONE)
        value->add_cell(RECORD_STRING, start, length);
    else
        value->add_cell(kind == JEHVRUKAM_ARRAY ? ITEMS : MEMBERS, 1, count);
    return value;
}

// ---- the libraries: each writes into `written` and says whether it was done

char written[2 * JEHVRUKAM_MAX_TEXT_BYTES];
size_t written_size;

bool write_ours(const Value &value)
{
    uint64_t size;
    const uint8_t *strings = value.strings.data();
    uint32_t refusal = writer_write(strings, 0, strings, value.strings.size(), value.table.data(), value.table.size(),
                                    value.cells.data(), value.cells.size(), value.cell,
                                    reinterpret_cast<uint8_t *>(written), JEHVRUKAM_MAX_TEXT_BYTES, &size);
    written_size = size;
    return refusal == 0;
}

// What was written elsewhere, for the comparison; not measured.
bool keep(const char *text, size_t size)
{
    written_size = size;
    std::memcpy(written, text, size);
    return true;
}

// Into a buffer that grows, made anew for each text or kept.
bool write_rapidjson(const rapidjson::Document &tree, rapidjson::StringBuffer &buffer)
{
    buffer.Clear();
    rapidjson::Writer<rapidjson::StringBuffer> writer(buffer);
    return tree.Accept(writer);
}

bool write_jansson(const json_t *tree)
{
    written_size = json_dumpb(tree, written, sizeof written, JSON_COMPACT | JSON_ENCODE_ANY);
    return written_size > 0 && written_size <= sizeof written;
}

// ---- the lines of the table

struct Cell {
    Measurement measurement;
    std::function<bool()> show; // writes once more, into `written`
};

struct Line {
    std::string name;
    size_t bytes;
    std::vector<Cell> cells; // of ours alone, or of all columns
};

const char *const columns[] = {"jehvrukam", "rapidjson", "(kept)", "cJSON", "(lent)", "jansson"};
std::vector<Line> lines;

void add_cell(Line &line, std::function<bool()> act, std::function<bool()> show)
{
    line.cells.push_back({Measurement(act), show});
}

void add_ours(Line &line, std::shared_ptr<Value> value)
{
    auto act = [value] { return write_ours(*value); };
    add_cell(line, act, act);
}

void add_rapidjson(Line &line, const std::string &text)
{
    auto tree = std::make_shared<rapidjson::Document>();
    auto kept = std::make_shared<rapidjson::StringBuffer>();
    tree->Parse(text.c_str());
    auto show = [tree, kept] {
        return write_rapidjson(*tree, *kept) && keep(kept->GetString(), kept->GetSize());
    };
    add_cell(line, [tree] {
        rapidjson::StringBuffer buffer;
        return write_rapidjson(*tree, buffer);
    }, show);
    add_cell(line, [tree, kept] { return write_rapidjson(*tree, *kept); }, show);
}

// By cJSON_PrintUnformatted, whose text is freed again, and by cJSON_PrintPreallocated into a lent buffer.
void add_cjson(Line &line, const std::string &text)
{
    std::shared_ptr<cJSON> tree(cJSON_ParseWithLength(text.data(), text.size()), cJSON_Delete);
    auto print = [tree] {
        char *printed = cJSON_PrintUnformatted(tree.get());
        cJSON_free(printed);
        return printed != nullptr;
    };
    auto print_lent = [tree] { return cJSON_PrintPreallocated(tree.get(), written, sizeof written, false) != 0; };
    auto show = [tree] {
        char *printed = cJSON_PrintUnformatted(tree.get());
        bool done = printed != nullptr && keep(printed, std::strlen(printed));
        cJSON_free(printed);
        return done;
    };
    auto show_lent = [print_lent] {
        bool done = print_lent();
        written_size = std::strlen(written);
        return done;
    };
    add_cell(line, print, show);
    add_cell(line, print_lent, show_lent);
}

void add_jansson(Line &line, const std::string &text)
{
    std::shared_ptr<json_t> tree(json_loadb(text.data(), text.size(), JSON_DECODE_ANY | JSON_ALLOW_NUL, nullptr),
                                 [](json_t *root) { json_decref(root); });
    auto act = [tree] { return write_jansson(tree.get()); };
    add_cell(line, act, act);
}

// A value that all libraries have, by its text.
void add(const std::string &name, const std::string &text)
{
    Line line = {name, 0, {}};
    add_ours(line, value_of(text));
    add_rapidjson(line, text);
    add_cjson(line, text);
    add_jansson(line, text);
    lines.push_back(line);
}

// A list of instants, in cells; no peer has them.
void add_instants(size_t count)
{
    Line line = {std::to_string(count) + " instants", 0, {}};
    std::shared_ptr<Value> value = std::make_shared<Value>();
    for (size_t i = 0; i < count; i++) {
        uint64_t since = UINT64_C(63750326400000) + i * UINT64_C(98765432100); // from 2020-03-02 on
        value->add_cell(INSTANT, since & UINT32_MAX, since >> 32);
    }
    value->add_cell(LIST, 0, count);
    add_ours(line, value);
    lines.push_back(line);
}

// Sees that each library writes the value, and all the same text.
bool prepare(Line &line)
{
    std::string first;
    for (Cell &cell : line.cells) {
        size_t column = static_cast<size_t>(&cell - line.cells.data());
        bool done = cell.measurement.prepare() && cell.show();
        std::string text(written, done ? written_size : 0);
        if (column == 0)
            first = text;
        if (!done || text != first) {
            std::fprintf(stderr, "%s: %s does not write it, or not as ours: %.60s and %.60s\n", line.name.c_str(),
                         columns[column], text.c_str(), first.c_str());
            return false;
        }
    }
    line.bytes = first.size();
    return true;
}

} // namespace

int main(int argc, char **argv)
{
    Arguments given(argc, argv);
    int rounds = given.rounds;
    add("record-300.json", given.record("record-300.json"));
    add("record-15k.json", given.record("record-15k.json"));
    add("a string of 15,000 bytes", "\"" + repeated("x", 15000) + "\"");
    add("2,700 control characters", "\"" + repeated("\\u0001", 2700) + "\"");
    add("960 integers of 16 digits", "[" + repeated("1234567890123456,", 959) + "1234567890123456]");
    add("arrays 32 deep, 32 times", "[" + repeated(repeated("[", 31) + repeated("]", 31) + ",", 32) + "0]");
    add_instants(600);

    for (Line &line : lines)
        if (!prepare(line))
            return 1;
    for (int round = 0; round < rounds; round++)
        for (Line &line : lines)
            for (Cell &cell : line.cells)
                cell.measurement.measure();

    std::printf("nanoseconds a value written, least of %d rounds\n%-37s %6s", rounds, "", "bytes");
    for (const char *column : columns)
        std::printf(" %11s", column);
    std::printf("\n");
    for (const Line &line : lines) {
        std::printf("%-37s %6zu", line.name.c_str(), line.bytes);
        for (const Cell &cell : line.cells)
            std::printf(" %11.0f", cell.measurement.best);
        std::printf("\n");
    }
    return 0;
}
