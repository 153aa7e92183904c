/*
 * Tests writer_write from C, the entry of the crate test_writer, which is no part of the product's library. Every area
 * stands between two pages that cannot be touched, with guard bytes in what is left of its own pages. The last line is
 * 'N passed, M failed'.
 */
#include "areas.h"
#include "test_writer.h"

#include <inttypes.h>

#define NO_SIZE UINT64_C(0x0123456789abcdef)
#define MAX_TEXT_BYTES 16384
#define MAX_VALUES 1024
#define MAX_NESTING 32

/* Tags of cells. */
enum { NONE, FALSE, TRUE, INTEGER, INSTANT, RULE_STRING, RECORD_STRING, ITEMS, MEMBERS, LIST, CONTEXT };

/* ---- what is given to a call */

struct given {
    const void *rule, *strings;
    size_t rule_len, strings_len;
    uint8_t table[64 * 16];
    size_t rows;
    uint8_t cells[2048 * 8];
    size_t cell_count;
    uint64_t cell;
};

static void put(uint8_t *to, uint64_t number, int bytes)
{
    for (int i = 0; i < bytes; i++)
        to[i] = (uint8_t)(number >> 8 * i);
}

/* One cell more, which is then the one that is asked for. */
static void add_cell(struct given *given, unsigned tag, uint64_t low, uint64_t high)
{
    put(given->cells + 8 * given->cell_count, low, 4);
    put(given->cells + 8 * given->cell_count + 4, high, 3);
    given->cells[8 * given->cell_count + 7] = (uint8_t)tag;
    given->cell = given->cell_count++;
}

/* One with a number of 56 bits. */
static void add_number(struct given *given, unsigned tag, uint64_t number)
{
    add_cell(given, tag, number & UINT32_MAX, number >> 32);
}

static void add_integer(struct given *given, int64_t integer)
{
    add_number(given, INTEGER, (uint64_t)(integer + (INT64_C(1) << 53)));
}

static void add_row(struct given *given, uint32_t kind, uint32_t name_start, uint32_t name_len, uint32_t third,
                    uint32_t fourth)
{
    uint8_t *row = given->table + 16 * given->rows++;
    put(row, kind + 256 * (uint64_t)name_len, 4);
    put(row + 4, name_start, 4);
    put(row + 8, third, 4);
    put(row + 12, fourth, 4);
}

/* Nothing but strings. */
static struct given *fresh(const char *rule, const char *strings)
{
    static struct given given;
    memset(&given, 0, sizeof given);
    given.rule = rule;
    given.rule_len = strlen(rule);
    given.strings = strings;
    given.strings_len = strlen(strings);
    return &given;
}

/* ---- one call, with everything in areas of its own */

static struct area copy_at(const void *bytes, size_t length, long offset)
{
    struct area area = area_at(length, offset);
    if (length > 0)
        memcpy(area.bytes, bytes, length);
    return area;
}

/* A call with an output of so many bytes gives this refusal, and this text. */
static void call_once(const struct given *given, size_t room, uint32_t refusal, const char *text, size_t text_len,
                      long offset, int line)
{
    const void *const from[4] = {given->rule, given->strings, given->table, given->cells};
    const size_t lengths[4] = {given->rule_len, given->strings_len, 16 * given->rows, 8 * given->cell_count};
    struct area lent[4], output = area_at(room, offset);
    uint64_t sizes[3] = {NO_SIZE, NO_SIZE, NO_SIZE};
    for (int i = 0; i < 4; i++)
        lent[i] = copy_at(from[i], lengths[i], offset);
    uint32_t answer =
        writer_write(lent[0].bytes, lent[0].length, lent[1].bytes, lent[1].length, lent[2].bytes, lent[2].length,
                     lent[3].bytes, lent[3].length, given->cell, output.bytes, output.length, &sizes[1]);
    if (!check(answer == refusal && sizes[1] == text_len, line, "answered so"))
        printf("  given %" PRIu32 " and %" PRIu64 " bytes, expected %" PRIu32 " and %zu\n", answer, sizes[1], refusal,
               text_len);
    if (text_len <= room) {
        if (!check(memcmp(output.bytes, text, text_len) == 0, line, "the text"))
            printf("  given %.*s\n", (int)(text_len < 200 ? text_len : 200), (const char *)output.bytes);
        check(all_are(output.bytes + text_len, room - text_len, 0), line, "zeros behind the text");
    }
    check(sizes[0] == NO_SIZE && sizes[2] == NO_SIZE, line, "nothing beside the size touched");
    check(guards_kept(&output), line, "guards of the output kept");
    for (int i = 0; i < 4; i++) {
        check(guards_kept(&lent[i]), line, "guards kept");
        check(lengths[i] == 0 || memcmp(lent[i].bytes, from[i], lengths[i]) == 0, line, "given areas kept");
        release(&lent[i]);
    }
    release(&output);
}

/* The value is written so into every output that is long enough, and refused with 12 for a shorter one. */
static void expect_bytes(const struct given *given, const char *text, size_t length, int line)
{
    for (long offset = -1; offset <= 1; offset++) {
        call_once(given, length, 0, text, length, offset, line);
        call_once(given, length + 1, 0, text, length, offset, line);
        call_once(given, length + 5000, 0, text, length, offset, line);
        call_once(given, length - 1, 12, "", 0, offset, line);
        call_once(given, length / 2, 12, "", 0, offset, line);
        call_once(given, 0, 12, "", 0, offset, line);
    }
    counted();
}

/* It is too large, for any output. */
static void expect_too_large(const struct given *given, int line)
{
    static const size_t rooms[] = {0, 1, 100, MAX_TEXT_BYTES - 1, MAX_TEXT_BYTES, MAX_TEXT_BYTES + 1, 40000};
    for (size_t i = 0; i < sizeof rooms / sizeof *rooms; i++)
        call_once(given, rooms[i], 11, "", 0, (long)i % 3 - 1, line);
    counted();
}

#define WRITTEN(given, text) expect_bytes((given), (text), sizeof(text) - 1, __LINE__)
#define TOO_LARGE(given) expect_too_large((given), __LINE__)

/* ---- the tests */

static void test_literals(void)
{
    struct given *g = fresh("", "");
    WRITTEN(g, "null"); /* no cell at all */
    add_cell(g, NONE, 7, 7);
    WRITTEN(g, "null");
    add_cell(g, FALSE, 7, 7);
    WRITTEN(g, "false");
    add_cell(g, TRUE, 7, 7);
    WRITTEN(g, "true");
    add_cell(g, CONTEXT + 1, 0, 2);
    WRITTEN(g, "null");
    add_cell(g, 255, 0, 2);
    WRITTEN(g, "null");
    g->cell = g->cell_count;
    WRITTEN(g, "null");
    g->cell = (UINT64_C(1) << 32) + 2;
    WRITTEN(g, "null");
    g->cell = UINT64_MAX;
    WRITTEN(g, "null");
}

static void test_integers(void)
{
    static const struct {
        int64_t integer;
        const char *text;
    } integers[] = {
        {0, "0"},
        {7, "7"},
        {10, "10"},
        {-1, "-1"},
        {INT64_C(-4294967296), "-4294967296"},
        {INT64_C(9007199254740991), "9007199254740991"},
        {INT64_C(-9007199254740991), "-9007199254740991"},
        {INT64_C(-9007199254740992), "-9007199254740992"},   /* the least that a cell has */
        {INT64_C(63050394783186943), "63050394783186943"},   /* the largest */
    };
    for (size_t i = 0; i < sizeof integers / sizeof *integers; i++) {
        struct given *g = fresh("", "");
        add_integer(g, integers[i].integer);
        expect_bytes(g, integers[i].text, strlen(integers[i].text), __LINE__);
    }
    struct given *g = fresh("", "");
    add_row(g, 4, 0, 0, UINT32_MAX, UINT32_MAX); /* the largest that a row has */
    add_cell(g, ITEMS, 0, 1);
    WRITTEN(g, "[18437736874454810623]");
}

static void test_instants(void)
{
    static const struct {
        uint64_t since; /* milliseconds since 0000-01-01 */
        const char *text;
    } instants[] = {
        {0, "\"0000-01-01T00:00:00.000Z\""},
        {UINT64_C(62167219199999), "\"1969-12-31T23:59:59.999Z\""},
        {UINT64_C(63750326400000), "\"2020-03-02T00:00:00.000Z\""},
        {UINT64_C(63750326399999), "\"2020-03-01T23:59:59.999Z\""},
        {UINT64_C(315569519999999), "\"9999-12-31T23:59:59.999Z\""},
        {UINT64_C(315569520000000), "null"},
        {(UINT64_C(1) << 56) - 1, "null"},
    };
    for (size_t i = 0; i < sizeof instants / sizeof *instants; i++) {
        struct given *g = fresh("", "");
        add_number(g, INSTANT, instants[i].since);
        expect_bytes(g, instants[i].text, strlen(instants[i].text), __LINE__);
    }
}

static void test_strings(void)
{
    struct given *g = fresh("rule's", "record's");
    add_cell(g, RULE_STRING, 1, 3);
    WRITTEN(g, "\"ule\"");
    add_cell(g, RECORD_STRING, 1, 3);
    WRITTEN(g, "\"eco\"");
    add_cell(g, RULE_STRING, 0, 0);
    WRITTEN(g, "\"\"");
    add_cell(g, RULE_STRING, 4, 0xffffff); /* clipped */
    WRITTEN(g, "\"'s\"");
    add_cell(g, RECORD_STRING, UINT32_MAX, 1);
    WRITTEN(g, "\"\"");

    g = fresh("\"\\/ \x7f\xc3\xa9\xe2\x82\xac\xf0\x9f\x98\x80\xff", "");
    add_cell(g, RULE_STRING, 0, 99);
    WRITTEN(g, "\"\\\"\\\\/ \x7f\xc3\xa9\xe2\x82\xac\xf0\x9f\x98\x80\xff\"");

    char controls[32];
    for (int i = 0; i < 32; i++)
        controls[i] = (char)i;
    g = fresh("", "");
    g->strings = controls;
    g->strings_len = sizeof controls;
    add_cell(g, RECORD_STRING, 0, 32);
    WRITTEN(g, "\"\\u0000\\u0001\\u0002\\u0003\\u0004\\u0005\\u0006\\u0007\\b\\t\\n\\u000b\\f\\r\\u000e\\u000f"
               "\\u0010\\u0011\\u0012\\u0013\\u0014\\u0015\\u0016\\u0017\\u0018\\u0019\\u001a\\u001b"
               "\\u001c\\u001d\\u001e\\u001f\"");
}

static void test_lists(void)
{
    struct given *g = fresh("", "");
    add_cell(g, LIST, 0, 0);
    WRITTEN(g, "[]");
    add_cell(g, LIST, 0, 1);
    WRITTEN(g, "[[]]");
    add_cell(g, LIST, 0, 2);
    WRITTEN(g, "[[],[[]]]"); /* shares its first item */
    add_cell(g, TRUE, 0, 0);
    add_cell(g, LIST, 3, 1);
    WRITTEN(g, "[true]");
    add_cell(g, LIST, 9, 3); /* cells that are not there */
    WRITTEN(g, "[null,null,null]");

    g = fresh("", "");
    add_cell(g, FALSE, 0, 0);
    add_integer(g, -5);
    add_cell(g, CONTEXT, 0, 2);
    WRITTEN(g, "{\"current\":false,\"accumulator\":-5}");
    add_cell(g, CONTEXT, 0, 0);
    WRITTEN(g, "{}");
    add_cell(g, CONTEXT, 1, 1);
    WRITTEN(g, "{\"accumulator\":-5}");
    add_cell(g, CONTEXT, 0, 3);
    WRITTEN(g, "{\"current\":false,\"current\":-5,\"accumulator\":{\"current\":false,\"accumulator\":-5}}");
}

/* {"a":[true,"x\n"],"":{"\"":null},"z":-1} as jehvrukam_read has it. */
static struct given *sample(void)
{
    struct given *g = fresh("", "ax\n\"z");
    add_row(g, 7, 0, 0, 3, 7);
    add_row(g, 6, 0, 1, 2, 4);
    add_row(g, 3, 0, 0, 0, 0);
    add_row(g, 5, 0, 0, 1, 2);
    add_row(g, 7, 3, 0, 1, 6);
    add_row(g, 1, 3, 1, 0, 0);
    add_row(g, 4, 4, 1, UINT32_MAX, 0x1fffff);
    return g;
}

static void test_rows(void)
{
    struct given *g = sample();
    add_cell(g, MEMBERS, 1, 3);
    WRITTEN(g, "{\"a\":[true,\"x\\n\"],\"\":{\"\\\"\":null},\"z\":-1}");
    add_cell(g, ITEMS, 2, 2);
    WRITTEN(g, "[true,\"x\\n\"]");
    add_cell(g, MEMBERS, 5, 1);
    WRITTEN(g, "{\"\\\"\":null}");
    add_cell(g, ITEMS, 4, 2);
    WRITTEN(g, "[{\"\\\"\":null},-1]");
    add_cell(g, LIST, 1, 3);
    WRITTEN(g, "[[true,\"x\\n\"],{\"\\\"\":null},[{\"\\\"\":null},-1]]");
    add_cell(g, ITEMS, 6, 3); /* rows that are not there */
    WRITTEN(g, "[-1,null,null]");
    add_cell(g, MEMBERS, UINT32_MAX, 2);
    WRITTEN(g, "{\"\":null,\"\":null}");
    add_cell(g, ITEMS, 3, 0);
    WRITTEN(g, "[]");

    /* After a row of kind 6 or more comes the row that it names; a kind above 7 is null. */
    g = fresh("", "name");
    add_row(g, 8, 0, 4, 9, 2);
    add_row(g, 2, 0, 4, 0, 0);
    add_row(g, 3, 2, 0xffffff, 0, 0);
    add_cell(g, MEMBERS, 0, 2);
    WRITTEN(g, "{\"name\":null,\"me\":true}");
}

/* Refusal 11 one past each limit, and what is still written. */
static void test_limits(void)
{
    static char text[MAX_TEXT_BYTES + 2], bytes[MAX_TEXT_BYTES + 2];
    struct given *g = fresh("", "");
    for (unsigned nesting = 1; nesting <= MAX_NESTING; nesting++)
        add_cell(g, LIST, nesting == 1 ? 0 : nesting - 2, nesting > 1);
    memset(text, '[', MAX_NESTING);
    memset(text + MAX_NESTING, ']', MAX_NESTING);
    expect_bytes(g, text, 2 * MAX_NESTING, __LINE__);
    add_cell(g, LIST, MAX_NESTING - 1, 1);
    TOO_LARGE(g);

    g = fresh("", "");
    for (unsigned i = 0; i < MAX_VALUES; i++)
        add_integer(g, 0);
    add_cell(g, LIST, 0, MAX_VALUES - 1);
    for (size_t i = 0; i < MAX_VALUES; i++)
        memcpy(text + 2 * i, "[0", 2);
    for (size_t i = 1; i < MAX_VALUES; i++)
        text[2 * i] = i < MAX_VALUES - 1 ? ',' : ']';
    expect_bytes(g, text, 2 * MAX_VALUES - 1, __LINE__);
    add_cell(g, LIST, 0, MAX_VALUES);
    TOO_LARGE(g);
    add_cell(g, ITEMS, 0, MAX_VALUES); /* of rows that are not there */
    TOO_LARGE(g);
    add_cell(g, ITEMS, 0, 0xffffff);
    TOO_LARGE(g);

    memset(bytes, 'x', sizeof bytes);
    memcpy(text, bytes, sizeof text);
    text[0] = text[MAX_TEXT_BYTES - 1] = '"';
    g = fresh("", "");
    g->rule = bytes;
    g->rule_len = sizeof bytes;
    add_cell(g, RULE_STRING, 0, MAX_TEXT_BYTES - 2);
    expect_bytes(g, text, MAX_TEXT_BYTES, __LINE__);
    add_cell(g, RULE_STRING, 0, MAX_TEXT_BYTES - 1);
    TOO_LARGE(g);
    add_cell(g, RULE_STRING, 0, MAX_TEXT_BYTES + 2);
    TOO_LARGE(g);
    add_cell(g, LIST, 0, 1); /* a string that fits alone, with brackets */
    TOO_LARGE(g);

    memset(bytes, 1, sizeof bytes);
    for (size_t i = 0; i < 2730; i++)
        memcpy(text + 1 + 6 * i, "\\u0001", 6);
    text[6 * 2730 + 1] = '"';
    g->cell_count = 0;
    add_cell(g, RULE_STRING, 0, 2730);
    expect_bytes(g, text, 6 * 2730 + 2, __LINE__);
    add_cell(g, RULE_STRING, 0, 2731);
    TOO_LARGE(g);
}

/* Values that share cells: 2^300 values, and a cell that is a part of itself. */
static void test_towers(void)
{
    static const unsigned levels[] = {10, 31, 32, 33, 300};
    for (size_t i = 0; i < sizeof levels / sizeof *levels; i++) {
        struct given *g = fresh("", "");
        add_cell(g, LIST, 0, 0);
        add_cell(g, LIST, 0, 0);
        for (unsigned level = 1; level <= levels[i]; level++) {
            add_cell(g, LIST, 2 * level - 2, 2);
            add_cell(g, LIST, 2 * level - 2, 2);
        }
        TOO_LARGE(g);
    }
    struct given *g = fresh("", "");
    add_cell(g, LIST, 0, 1);
    TOO_LARGE(g);
    add_cell(g, CONTEXT, 0, 2);
    TOO_LARGE(g);
}

/* An output straight from malloc: under valgrind nothing may depend on what it held. */
static void test_unset_output(void)
{
    struct given *g = sample();
    add_cell(g, MEMBERS, 1, 3);
    for (size_t room = 0; room <= 60; room++) {
        uint8_t *output = malloc(room + 1);
        uint64_t *size = malloc(sizeof *size);
        if (output == NULL || size == NULL)
            exit(2);
        uint32_t refusal = writer_write(g->rule, g->rule_len, g->strings, g->strings_len, g->table, 16 * g->rows,
                                        g->cells, 8 * g->cell_count, g->cell, output, room, size);
        CHECK(refusal == (room < 40 ? 12u : 0u));
        CHECK(*size == (room < 40 ? 0u : 40u));
        CHECK(all_are(output + *size, room - *size, 0));
        CHECK(room < 40 || memcmp(output, "{\"a\":[true,\"x\\n\"],\"\":{\"\\\"\":null},\"z\":-1}", 40) == 0);
        free(output);
        free(size);
    }
    counted();
}

int main(void)
{
    test_literals();
    test_integers();
    test_instants();
    test_strings();
    test_lists();
    test_rows();
    test_limits();
    test_towers();
    test_unset_output();
    printf("%d passed, %d failed\n", passed, failed);
    return failed == 0 ? 0 : 1;
}
