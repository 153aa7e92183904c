// Nanoseconds a read: ours beside rapidjson, cJSON and jansson, on two records and on hostile texts.
//
//     bench FOLDER [ROUNDS]   FOLDER has record-300.json and record-15k.json
//
// Each number is the least of all rounds; a round goes through all texts and libraries. Ours includes the clearing of
// both areas. What a peer allocates it allocates and frees in each read. The last two columns are our time for an
// ordinary text of as many bytes, and our time for the text as a multiple of that.
#include "jehvrukam.h"
#include "measure.h"
#include "texts.h"

#include <cjson/cJSON.h>
#include <jansson.h>
#include <rapidjson/document.h>

#include <algorithm>
#include <cstdio>
#include <cstdlib>
#include <cstring>
#include <string>
#include <vector>

namespace {

uint8_t table[JEHVRUKAM_TABLE_BYTES], strings[JEHVRUKAM_STRINGS_BYTES];

// ---- the libraries: each reads a text to a tree, frees it, and says whether it was read

bool read_ours(const std::string &text)
{
    uint64_t place;
    return jehvrukam_read(reinterpret_cast<const uint8_t *>(text.data()), text.size(), table, sizeof table, strings,
                          sizeof strings, &place) == JEHVRUKAM_DONE;
}

// Into a Document with its default allocator; recursive, not in situ, from a text that ends in a zero byte.
bool read_rapidjson(const std::string &text)
{
    rapidjson::Document document;
    document.Parse<rapidjson::kParseValidateEncodingFlag>(text.c_str());
    return !document.HasParseError();
}

bool read_rapidjson_iterative(const std::string &text)
{
    rapidjson::Document document;
    document.Parse<rapidjson::kParseValidateEncodingFlag | rapidjson::kParseIterativeFlag>(text.c_str());
    return !document.HasParseError();
}

bool read_cjson(const std::string &text)
{
    cJSON *tree = cJSON_ParseWithLength(text.data(), text.size());
    cJSON_Delete(tree);
    return tree != nullptr;
}

// Like ours it checks UTF-8 and, as asked here, repeated names.
bool read_jansson(const std::string &text)
{
    const size_t flags = JSON_REJECT_DUPLICATES | JSON_DECODE_ANY | JSON_ALLOW_NUL;
    json_t *tree = json_loadb(text.data(), text.size(), flags, nullptr);
    json_decref(tree);
    return tree != nullptr;
}

bool clear_only(const std::string &)
{
    std::memset(table, 0, sizeof table);
    std::memset(strings, 0, sizeof strings);
    asm volatile("" : : "r"(table), "r"(strings) : "memory");
    return true;
}

// A line of the table: a text with each library, and with ours an ordinary text as long.
struct Line {
    std::string name;
    size_t bytes;
    std::vector<Measurement> cells;
};

const char *const columns[] = {"jehvrukam", "rapidjson", "(iterative)", "cJSON", "jansson", "ordinary"};
std::vector<Line> lines;

// ---- the texts

// A text of this many bytes such as records are: small objects in an array, and a string to fill it up.
std::string ordinary(size_t size)
{
    std::string text = "{\"nodes\":[";
    for (int i = 0; i < 140; i++) {
        char item[128];
        std::snprintf(item, sizeof item,
                      "%s{\"id\":%d,\"node\":\"node-east-%04d\",\"up\":%s,\"load\":%d,"
                      "\"since\":\"2026-01-01T00:00:00.000Z\",\"tag\":null}",
                      i ? "," : "", i, i, i % 2 ? "true" : "false", 37 * i % 5000);
        if (text.size() + std::strlen(item) + 10 > size)
            break;
        text += item;
    }
    text += "],\"p\":\"";
    return text + std::string(size - text.size() - 2, 'x') + "\"}";
}

Measurement reading(bool (*read)(const std::string &), const std::string &text)
{
    return Measurement([read, text] { return read(text); });
}

void add(const std::string &name, const std::string &text)
{
    std::vector<Measurement> cells;
    for (auto read : {read_ours, read_rapidjson, read_rapidjson_iterative, read_cjson, read_jansson})
        cells.push_back(reading(read, text));
    cells.push_back(reading(read_ours, text.size() < 100 ? text : ordinary(text.size())));
    lines.push_back({name, text.size(), cells});
}

std::string object_of(const std::vector<std::string> &names)
{
    std::string text = "{";
    for (const std::string &name : names)
        text += (text.size() > 1 ? ",\"" : "\"") + name + "\":0";
    return text + "}";
}

std::string digits(unsigned number, int width)
{
    char text[32];
    std::snprintf(text, sizeof text, "%0*u", width, number);
    return text;
}

std::string base36(unsigned number, int width)
{
    std::string text(width, '0');
    for (int i = width - 1; i >= 0; i--, number /= 36)
        text[i] = "0123456789abcdefghijklmnopqrstuvwxyz"[number % 36];
    return text;
}

// The nth of names of which each departs from a long row of o's one bit later than the one before.
std::string chained(unsigned n)
{
    return std::string(n / 6, 'o') + static_cast<char>('o' ^ (32 >> n % 6));
}

void add_hostile_texts()
{
    std::vector<std::string> names;
    for (unsigned i = 0; i < 1000; i++)
        names.push_back(base36(i * 977 % 1296, 2));
    add("1,000 members, short names", object_of(names));

    names.clear();
    for (unsigned i = 0; i < 1000; i++)
        names.push_back(digits(i, 4));
    add("1,000 members, ascending names", object_of(names));

    names.clear();
    for (unsigned i = 0; i < 1000; i++)
        names.push_back("prefix/" + digits(i * 377 % 1000, 3));
    add("1,000 members, common prefix of 7", object_of(names));

    names.clear();
    for (unsigned i = 0; i < 100; i++)
        names.push_back(std::string(150, 'p') + digits(i * 37 % 100, 2));
    add("100 members, common prefix of 150", object_of(names));

    names.clear();
    for (unsigned i = 0; i < 1000; i++)
        names.push_back("name-" + digits(i / 2 * 211 % 500, 3) + (i % 2 ? "q" : "p"));
    add("1,000 members, pairs by the last bit", object_of(names));

    names.clear();
    for (unsigned i = 0; i < 48; i++)
        names.push_back(chained(i));
    for (unsigned i = 0; i < 952; i++)
        names.push_back("oooooooo" + base36(i * 577 % 1296, 2));
    add("1,000 members, 50 bits deep", object_of(names));

    names.clear();
    for (unsigned i = 0; i < 400; i++)
        names.push_back(chained(i));
    add("400 members, chain of bits", object_of(names));
    std::reverse(names.begin(), names.end());
    add("400 members, chain backwards", object_of(names));

    names.clear();
    for (unsigned i = 0; i < 170; i++)
        names.push_back(std::string(i, 'o'));
    add("170 members, each begins the next", object_of(names));

    add("arrays 32 deep, 32 times", "[" + repeated(repeated("[", 31) + repeated("]", 31) + ",", 32) + "0]");
    add("objects 32 deep, 31 times",
        "[" + repeated(repeated("{\"a\":", 31) + "0" + repeated("}", 31) + ",", 31) + "0]");
    add("1,000 integers of 15 digits", "[" + repeated("123456789012345,", 999) + "0]");
    add("a string of 15,000 bytes", "\"" + repeated("x", 15000) + "\"");
    add("escapes \\n only", "\"" + repeated("\\n", 7500) + "\"");
    add("escapes \\u00e9 only", "\"" + repeated("\\u00e9", 2500) + "\"");
    add("escaped surrogate pairs only", "\"" + repeated("\\ud83d\\ude00", 1250) + "\"");
    add("two-byte UTF-8 only", "\"" + repeated("\xc3\xa9", 7500) + "\"");
    add("white space only", repeated(" ", 15000) + "0");
}

} // namespace

int main(int argc, char **argv)
{
    Arguments given(argc, argv);
    int rounds = given.rounds;
    add("record-300.json", given.record("record-300.json"));
    add("record-15k.json", given.record("record-15k.json"));
    add("the text 0", "0");
    add_hostile_texts();
    Measurement clearing = reading(clear_only, "");

    clearing.prepare();
    for (Line &line : lines)
        for (Measurement &cell : line.cells)
            if (!cell.prepare()) {
                std::fprintf(stderr, "%s: a text of %zu bytes does not read\n", line.name.c_str(), line.bytes);
                return 1;
            }
    for (int round = 0; round < rounds; round++) {
        clearing.measure();
        for (Line &line : lines)
            for (Measurement &cell : line.cells)
                cell.measure();
    }

    std::printf("nanoseconds a read, least of %d rounds; clearing both areas by memset takes %.0f\n", rounds,
                clearing.best);
    std::printf("%-37s %6s", "", "bytes");
    for (const char *column : columns)
        std::printf(" %11s", column);
    std::printf("  ratio\n");
    for (const Line &line : lines) {
        std::printf("%-37s %6zu", line.name.c_str(), line.bytes);
        for (const Measurement &cell : line.cells)
            std::printf(" %11.0f", cell.best);
        std::printf(" %6.2f\n", line.cells.front().best / line.cells.back().best);
    }
    return 0;
}
