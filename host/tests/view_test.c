/*
 * Tests the viewer from C: jehvrukam_view and the four entries after it. Every table stands between two pages that
 * cannot be touched, with guard bytes in what is left of its own pages. The last line is 'N passed, M failed'.
 */
#include "areas.h"
#include "jehvrukam.h"

#include <inttypes.h>

#define NO_NUMBER UINT64_C(0x0123456789abcdef)
#define COUNT_OF(list) (sizeof(list) / sizeof *(list))

/* ---- one question */

enum entry { VIEW, PART, INTEGER, STRING, NAME };

/* What an entry answers, and what it leaves in its numbers. */
struct told {
    uint32_t refusal;
    uint64_t first, second;
};

static const struct told nothing = {JEHVRUKAM_BAD_ARGUMENT, NO_NUMBER, NO_NUMBER};

static struct told ask_integer(const struct area *table, uint64_t place)
{
    int64_t values[3] = {(int64_t)NO_NUMBER, (int64_t)NO_NUMBER, (int64_t)NO_NUMBER}; /* the middle one is lent */
    uint32_t refusal = jehvrukam_view_integer(table->bytes, table->length, place, &values[1]);
    CHECK(values[0] == (int64_t)NO_NUMBER && values[2] == (int64_t)NO_NUMBER);
    return (struct told){refusal, (uint64_t)values[1], NO_NUMBER};
}

static struct told ask(enum entry entry, const struct area *table, uint64_t place, uint64_t nth)
{
    uint64_t numbers[5]; /* every second one is lent */
    uint64_t *first = &numbers[1], *second = &numbers[3];
    uint32_t refusal = UINT32_MAX;
    for (size_t i = 0; i < COUNT_OF(numbers); i++)
        numbers[i] = NO_NUMBER;
    switch (entry) {
    case VIEW: refusal = jehvrukam_view(table->bytes, table->length, place, first, second); break;
    case PART: refusal = jehvrukam_view_part(table->bytes, table->length, place, nth, first); break;
    case INTEGER: return ask_integer(table, place);
    case STRING: refusal = jehvrukam_view_string(table->bytes, table->length, place, first, second); break;
    case NAME: refusal = jehvrukam_view_name(table->bytes, table->length, place, first, second); break;
    }
    CHECK(numbers[0] == NO_NUMBER && numbers[2] == NO_NUMBER && numbers[4] == NO_NUMBER);
    return (struct told){refusal, *first, *second};
}

static void expect(const struct area *table, enum entry entry, uint64_t place, uint64_t nth, struct told expected,
                   int line)
{
    static const char *const names[] = {"view", "part", "integer", "string", "name"};
    struct told told = ask(entry, table, place, nth);
    if (!check(told.refusal == expected.refusal && told.first == expected.first && told.second == expected.second, line,
               "told so"))
        printf("  %s at %" PRIu64 " of %zu bytes, nth %" PRIu64 ": given %" PRIu32 ", %" PRIu64 ", %" PRIu64
               ", expected %" PRIu32 ", %" PRIu64 ", %" PRIu64 "\n", names[entry], place, table->length, nth,
               told.refusal, told.first, told.second, expected.refusal, expected.first, expected.second);
}

static void expect_part(const struct area *table, uint64_t place, uint64_t nth, uint64_t part, int line)
{
    expect(table, PART, place, nth, (struct told){JEHVRUKAM_DONE, part, NO_NUMBER}, line);
}

static void expect_no_part(const struct area *table, uint64_t place, uint64_t nth, int line)
{
    expect(table, PART, place, nth, nothing, line);
}

/* Numbers that are not there, in any table. Sixteen times some of them is a small number in 32 or in 64 bits. */
static const uint64_t far[] = {
    1024, 1025, 1 << 28, (1 << 28) + 1, UINT32_MAX, UINT64_C(1) << 32, (UINT64_C(1) << 32) + 1, UINT64_C(1) << 60,
    (UINT64_C(1) << 60) + 1, INT64_MAX, UINT64_C(1) << 63, (UINT64_C(1) << 63) + 1, UINT64_MAX - 1, UINT64_MAX,
};

/* A value of this kind and count, with this name: no part from the count on, an integer or a string by its kind. */
static void expect_value(const struct area *table, uint64_t place, uint64_t kind, uint64_t count, uint64_t name_start,
                         uint64_t name_length, int line)
{
    expect(table, VIEW, place, 0, (struct told){JEHVRUKAM_DONE, kind, count}, line);
    expect(table, NAME, place, 0, (struct told){JEHVRUKAM_DONE, name_start, name_length}, line);
    for (uint64_t more = 0; more < 3; more++)
        expect_no_part(table, place, count + more, line);
    for (size_t i = 0; i < COUNT_OF(far); i++)
        expect_no_part(table, place, far[i], line);
    if (kind != JEHVRUKAM_INTEGER)
        expect(table, INTEGER, place, 0, nothing, line);
    if (kind != JEHVRUKAM_STRING)
        expect(table, STRING, place, 0, nothing, line);
}

static void expect_integer(const struct area *table, uint64_t place, int64_t value, int line)
{
    expect(table, INTEGER, place, 0, (struct told){JEHVRUKAM_DONE, (uint64_t)value, NO_NUMBER}, line);
}

static void expect_string(const struct area *table, uint64_t place, uint64_t start, uint64_t length, int line)
{
    expect(table, STRING, place, 0, (struct told){JEHVRUKAM_DONE, start, length}, line);
}

/* Nothing is told of this place. */
static void expect_refused(const struct area *table, uint64_t place, int line)
{
    static const uint64_t nths[] = {0, 1, 2, UINT64_MAX};
    expect(table, VIEW, place, 0, nothing, line);
    expect(table, INTEGER, place, 0, nothing, line);
    expect(table, STRING, place, 0, nothing, line);
    expect(table, NAME, place, 0, nothing, line);
    for (size_t i = 0; i < COUNT_OF(nths); i++)
        expect_no_part(table, place, nths[i], line);
}

/* ---- tables */

struct row {
    uint32_t kind, name_start, name_length, third, fourth;
};

static const struct row null = {JEHVRUKAM_NULL, 0, 0, 0, 0};

static struct row container(uint32_t kind, uint32_t count, uint32_t end)
{
    return (struct row){kind, 0, 0, count, end};
}

/* An integer by its number of 64 bits. */
static struct row integer(uint64_t number)
{
    return (struct row){JEHVRUKAM_INTEGER, 0, 0, (uint32_t)number, (uint32_t)(number >> 32)};
}

static void put(uint8_t *to, uint32_t number)
{
    for (int i = 0; i < 4; i++)
        to[i] = (uint8_t)(number >> 8 * i);
}

static void put_row(uint8_t *table, size_t place, struct row row)
{
    uint8_t *to = table + JEHVRUKAM_ROW_BYTES * place;
    put(to, row.kind + 256 * row.name_length);
    put(to + 4, row.name_start);
    put(to + 8, row.third);
    put(to + 12, row.fourth);
}

/* A table of these bytes. */
static struct area lay(const uint8_t *bytes, size_t length, long offset)
{
    struct area table = area_at(length, offset);
    if (length > 0)
        memcpy(table.bytes, bytes, length);
    return table;
}

/* Nothing was written to the table, or beside it. */
static void end(struct area *table, const uint8_t *bytes, int line)
{
    check(guards_kept(table), line, "guards kept");
    check(table->length == 0 || memcmp(table->bytes, bytes, table->length) == 0, line, "table kept");
    release(table);
}

/* Tables begin where their pages begin, end where they end, or are not aligned. */
#define EACH_OFFSET(offset) for (long offset = -1; offset <= 1; offset++)

/* A text that was read, in a table and a strings area. */
struct text {
    struct area table;
    uint8_t kept[2 * JEHVRUKAM_TABLE_BYTES];
    uint8_t strings[JEHVRUKAM_STRINGS_BYTES];
};

static void begin_text(struct text *text, const char *bytes, size_t table_len, long offset, int line)
{
    uint64_t place = NO_NUMBER;
    text->table = area_at(table_len, offset);
    check(jehvrukam_read((const uint8_t *)bytes, strlen(bytes), text->table.bytes, table_len, text->strings,
                         sizeof text->strings, &place) == JEHVRUKAM_DONE, line, "read");
    memcpy(text->kept, text->table.bytes, table_len);
}

static void end_text(struct text *text, int line)
{
    end(&text->table, text->kept, line);
}

/* ---- texts that were read */

/* Each value of a small text, and every place behind the last. */
static void test_sample(size_t table_len)
{
    static const char sample[] = " {\"a\":[true,-1,\"x\\n\"],\"\":{\"\\u0062\":null},\"c\xc3\xa9\":[],\"z\":false} ";
    static const struct {
        uint64_t kind, count, name_start, name_length;
    } seen[] = {
        {JEHVRUKAM_OBJECT, 4, 0, 0},  {JEHVRUKAM_ARRAY, 3, 0, 1},  {JEHVRUKAM_TRUE, 0, 0, 0},
        {JEHVRUKAM_INTEGER, 0, 0, 0}, {JEHVRUKAM_STRING, 0, 0, 0}, {JEHVRUKAM_OBJECT, 1, 3, 0},
        {JEHVRUKAM_NULL, 0, 3, 1},    {JEHVRUKAM_ARRAY, 0, 4, 3},  {JEHVRUKAM_FALSE, 0, 7, 1},
    };
    static const uint64_t parts[][3] = { /* of which, its number, its place */
        {0, 0, 1}, {0, 1, 5}, {0, 2, 7}, {0, 3, 8}, {1, 0, 2}, {1, 1, 3}, {1, 2, 4}, {5, 0, 6},
    };
    static struct text text;
    EACH_OFFSET(offset) {
        begin_text(&text, sample, table_len, offset, __LINE__);
        for (uint64_t place = 0; place < COUNT_OF(seen); place++)
            expect_value(&text.table, place, seen[place].kind, seen[place].count, seen[place].name_start,
                         seen[place].name_length, __LINE__);
        for (size_t i = 0; i < COUNT_OF(parts); i++)
            expect_part(&text.table, parts[i][0], parts[i][1], parts[i][2], __LINE__);
        expect_integer(&text.table, 3, -1, __LINE__);
        expect_string(&text.table, 4, 1, 2, __LINE__);
        CHECK(memcmp(text.strings + 1, "x\n", 2) == 0 && memcmp(text.strings + 4, "c\xc3\xa9", 3) == 0);
        for (uint64_t place = COUNT_OF(seen); place < 1800; place++)
            expect_refused(&text.table, place, __LINE__);
        for (size_t i = 0; i < COUNT_OF(far); i++)
            expect_refused(&text.table, far[i], __LINE__);
        end_text(&text, __LINE__);
    }
    counted();
}

/* Texts of one value, of every kind. */
static void test_single_values(void)
{
    static const struct {
        const char *text;
        uint64_t kind;
    } values[] = {
        {"null", JEHVRUKAM_NULL},   {"false", JEHVRUKAM_FALSE}, {"true", JEHVRUKAM_TRUE}, {"7", JEHVRUKAM_INTEGER},
        {"\"\"", JEHVRUKAM_STRING}, {"[]", JEHVRUKAM_ARRAY},    {"{}", JEHVRUKAM_OBJECT},
    };
    static struct text text;
    for (size_t i = 0; i < COUNT_OF(values); i++) {
        EACH_OFFSET(offset) {
            begin_text(&text, values[i].text, JEHVRUKAM_TABLE_BYTES, offset, __LINE__);
            expect_value(&text.table, 0, values[i].kind, 0, 0, 0, __LINE__);
            expect_refused(&text.table, 1, __LINE__);
            end_text(&text, __LINE__);
        }
        counted();
    }
}

/* Integers, up to both limits. */
static void test_integers(void)
{
    static const struct {
        const char *text;
        int64_t integer;
    } integers[] = {
        {"0", 0},
        {"-0", 0},
        {"1", 1},
        {"-1", -1},
        {"4294967295", INT64_C(4294967295)},
        {"4294967296", INT64_C(4294967296)},
        {"-4294967295", INT64_C(-4294967295)},
        {"-4294967296", INT64_C(-4294967296)},
        {"9007199254740990", JEHVRUKAM_MAX_INTEGER - 1},
        {"9007199254740991", JEHVRUKAM_MAX_INTEGER},
        {"-9007199254740990", 1 - JEHVRUKAM_MAX_INTEGER},
        {"-9007199254740991", -JEHVRUKAM_MAX_INTEGER},
    };
    static struct text text;
    for (size_t i = 0; i < COUNT_OF(integers); i++) {
        EACH_OFFSET(offset) {
            begin_text(&text, integers[i].text, JEHVRUKAM_TABLE_BYTES, offset, __LINE__);
            expect_value(&text.table, 0, JEHVRUKAM_INTEGER, 0, 0, 0, __LINE__);
            expect_integer(&text.table, 0, integers[i].integer, __LINE__);
            end_text(&text, __LINE__);
        }
        counted();
    }
}

/* Empty names, and names beside items that have none. */
static void test_names(void)
{
    static struct text text;
    const struct area *table = &text.table;
    EACH_OFFSET(offset) {
        begin_text(&text, "{\"\":1,\"a\":{\"\":[\"\"],\"b\":\"c\"},\"d\":\"\"}", JEHVRUKAM_TABLE_BYTES, offset,
                   __LINE__);
        expect_value(table, 0, JEHVRUKAM_OBJECT, 3, 0, 0, __LINE__);
        expect_value(table, 1, JEHVRUKAM_INTEGER, 0, 0, 0, __LINE__);
        expect_value(table, 2, JEHVRUKAM_OBJECT, 2, 0, 1, __LINE__);
        expect_value(table, 3, JEHVRUKAM_ARRAY, 1, 1, 0, __LINE__);
        expect_value(table, 4, JEHVRUKAM_STRING, 0, 0, 0, __LINE__);
        expect_value(table, 5, JEHVRUKAM_STRING, 0, 1, 1, __LINE__);
        expect_value(table, 6, JEHVRUKAM_STRING, 0, 3, 1, __LINE__);
        expect_string(table, 4, 1, 0, __LINE__);
        expect_string(table, 5, 2, 1, __LINE__);
        expect_string(table, 6, 4, 0, __LINE__);
        CHECK(memcmp(text.strings, "abcd", 5) == 0);
        end_text(&text, __LINE__);
    }
    counted();
}

/* A string, and a name, as long as a text can hold. */
static void test_long_strings(void)
{
    static char string[JEHVRUKAM_MAX_TEXT_BYTES + 1], named[JEHVRUKAM_MAX_TEXT_BYTES + 1];
    static struct text text;
    memset(string, 'x', sizeof string - 1);
    memcpy(named, string, sizeof named);
    string[0] = string[sizeof string - 2] = '"';
    memcpy(named, "{\"", 2);
    memcpy(named + sizeof named - 5, "\":0}", 5);
    EACH_OFFSET(offset) {
        begin_text(&text, string, JEHVRUKAM_TABLE_BYTES, offset, __LINE__);
        expect_string(&text.table, 0, 0, JEHVRUKAM_MAX_TEXT_BYTES - 2, __LINE__);
        end_text(&text, __LINE__);
        begin_text(&text, named, JEHVRUKAM_TABLE_BYTES, offset, __LINE__);
        expect_value(&text.table, 1, JEHVRUKAM_INTEGER, 0, 0, JEHVRUKAM_MAX_TEXT_BYTES - 6, __LINE__);
        end_text(&text, __LINE__);
    }
    counted();
}

/* Arrays as deep as a text can nest. */
static void test_nesting(void)
{
    static char nested[2 * JEHVRUKAM_MAX_NESTING + 1];
    static struct text text;
    memset(nested, '[', JEHVRUKAM_MAX_NESTING);
    memset(nested + JEHVRUKAM_MAX_NESTING, ']', JEHVRUKAM_MAX_NESTING);
    EACH_OFFSET(offset) {
        begin_text(&text, nested, JEHVRUKAM_TABLE_BYTES, offset, __LINE__);
        for (uint64_t place = 0; place < JEHVRUKAM_MAX_NESTING; place++) {
            uint64_t count = place + 1 < JEHVRUKAM_MAX_NESTING;
            expect_value(&text.table, place, JEHVRUKAM_ARRAY, count, 0, 0, __LINE__);
            if (count > 0)
                expect_part(&text.table, place, 0, place + 1, __LINE__);
        }
        expect_refused(&text.table, JEHVRUKAM_MAX_NESTING, __LINE__);
        end_text(&text, __LINE__);
    }
    counted();
}

/* An array with as many items as a text can have. */
static void test_many_items(void)
{
    static char items[2 * JEHVRUKAM_MAX_VALUES];
    static struct text text;
    for (size_t i = 1; i < JEHVRUKAM_MAX_VALUES; i++)
        memcpy(items + 2 * i - 1, "1,", 2);
    items[0] = '[';
    items[2 * JEHVRUKAM_MAX_VALUES - 2] = ']';
    EACH_OFFSET(offset) {
        begin_text(&text, items, JEHVRUKAM_TABLE_BYTES, offset, __LINE__);
        expect_value(&text.table, 0, JEHVRUKAM_ARRAY, JEHVRUKAM_MAX_VALUES - 1, 0, 0, __LINE__);
        for (uint64_t nth = 0; nth < JEHVRUKAM_MAX_VALUES - 1; nth++) {
            expect_part(&text.table, 0, nth, nth + 1, __LINE__);
            expect_integer(&text.table, nth + 1, 1, __LINE__);
        }
        expect_refused(&text.table, JEHVRUKAM_MAX_VALUES, __LINE__);
        end_text(&text, __LINE__);
    }
    counted();
}

/* The three tables that jehvrukam_evaluate_checked filled; and a table of zeros, which a refused text leaves. */
static void test_other_entries(void)
{
    static const char rule[] = "{\"var\":\"a\"}", sheet[] = "{\"a\":[\"integer\"]}", record[] = "{\"a\":7}";
    static uint8_t tables[3][JEHVRUKAM_TABLE_BYTES], strings[3][JEHVRUKAM_STRINGS_BYTES];
    static uint8_t cells[JEHVRUKAM_CELLS_BYTES], output[16];
    static const uint64_t kinds[] = {JEHVRUKAM_STRING, JEHVRUKAM_ARRAY, JEHVRUKAM_INTEGER};
    uint64_t numbers[6];
    CHECK(jehvrukam_evaluate_checked(
              (const uint8_t *)rule, sizeof rule - 1, (const uint8_t *)sheet, sizeof sheet - 1, (const uint8_t *)record,
              sizeof record - 1, 1, tables[0], sizeof tables[0], strings[0], sizeof strings[0], tables[1],
              sizeof tables[1], strings[1], sizeof strings[1], tables[2], sizeof tables[2], strings[2],
              sizeof strings[2], cells, sizeof cells, output, sizeof output, &numbers[0], &numbers[1], &numbers[2],
              &numbers[3], &numbers[4], &numbers[5]) == JEHVRUKAM_DONE);
    for (int i = 0; i < 3; i++) {
        struct area table = lay(tables[i], sizeof tables[i], -1);
        expect_value(&table, 0, JEHVRUKAM_OBJECT, 1, 0, 0, __LINE__);
        expect_part(&table, 0, 0, 1, __LINE__);
        expect_value(&table, 1, kinds[i], i == 1, 0, i == 0 ? 3 : 1, __LINE__);
        end(&table, tables[i], __LINE__);
        counted();
    }

    CHECK(jehvrukam_read((const uint8_t *)"[1.5]", 5, tables[0], sizeof tables[0], strings[0], sizeof strings[0],
                         &numbers[0]) == JEHVRUKAM_BAD_NUMBER);
    struct area table = lay(tables[0], sizeof tables[0], -1);
    for (uint64_t place = 0; place < 1800; place++)
        expect_refused(&table, place, __LINE__);
    end(&table, tables[0], __LINE__);
    counted();
}

/* ---- tables of every length */

/* A row is there if all of its bytes are. Row 0 is an array that ends before row 2. */
static void test_lengths(void)
{
    uint8_t bytes[4 * JEHVRUKAM_ROW_BYTES];
    put_row(bytes, 0, container(JEHVRUKAM_ARRAY, 1, 2));
    for (size_t place = 1; place < 4; place++)
        put_row(bytes, place, null);
    for (size_t length = 0; length <= sizeof bytes; length++) {
        EACH_OFFSET(offset) {
            struct area table = lay(bytes, length, offset);
            for (size_t place = 0; place < 6; place++) {
                size_t needed = 16 * (place == 0 ? 2 : place + 1);
                if (length < needed)
                    expect_refused(&table, place, __LINE__);
                else if (place > 0)
                    expect_value(&table, place, JEHVRUKAM_NULL, 0, 0, 0, __LINE__);
                else
                    expect_value(&table, 0, JEHVRUKAM_ARRAY, 1, 0, 0, __LINE__);
            }
            if (length >= 32)
                expect_part(&table, 0, 0, 1, __LINE__);
            for (size_t i = 0; i < COUNT_OF(far); i++)
                expect_refused(&table, far[i], __LINE__);
            end(&table, bytes, __LINE__);
        }
        counted();
    }
}

/* The same with a scalar in row 0: lengths 0, 15, 16 and 17 among them. */
static void test_single_rows(void)
{
    uint8_t bytes[2 * JEHVRUKAM_ROW_BYTES];
    put_row(bytes, 0, null);
    put_row(bytes, 1, null);
    for (size_t length = 0; length < sizeof bytes; length++) {
        EACH_OFFSET(offset) {
            struct area table = lay(bytes, length, offset);
            if (length < 16)
                expect_refused(&table, 0, __LINE__);
            else
                expect_value(&table, 0, JEHVRUKAM_NULL, 0, 0, 0, __LINE__);
            expect_refused(&table, 1, __LINE__);
            end(&table, bytes, __LINE__);
        }
        counted();
    }
}

/* A table of this length, all nulls but an object in row 0 that ends before row `last`. */
static void expect_nulls(uint8_t *bytes, size_t length, uint32_t last, int line)
{
    size_t rows = length / 16 < 1024 ? length / 16 : 1024;
    put_row(bytes, 0, container(JEHVRUKAM_OBJECT, last - 1, last));
    EACH_OFFSET(offset) {
        struct area table = lay(bytes, length, offset);
        if (last > rows) {
            expect_refused(&table, 0, line);
        } else {
            expect_value(&table, 0, JEHVRUKAM_OBJECT, last - 1, 0, 0, line);
            expect_part(&table, 0, last - 2, last - 1, line);
        }
        for (size_t place = 1020; place < length / 16 + 4; place++) {
            if (place < rows)
                expect_value(&table, place, JEHVRUKAM_NULL, 0, 0, 0, line);
            else
                expect_refused(&table, place, line);
        }
        end(&table, bytes, line);
    }
    counted();
}

/* Rows from 1,024 on are not there, whatever they hold, and no container reaches over them. */
static void test_long_tables(void)
{
    static uint8_t bytes[2 * JEHVRUKAM_TABLE_BYTES];
    static const size_t lengths[] = {16 * 1023, 16 * 1023 + 15, 16 * 1024, 16 * 1024 + 15, 16 * 1025, 16 * 1030,
                                     JEHVRUKAM_TABLE_BYTES - 1, JEHVRUKAM_TABLE_BYTES, JEHVRUKAM_TABLE_BYTES + 1,
                                     2 * JEHVRUKAM_TABLE_BYTES};
    for (size_t place = 0; place < sizeof bytes / JEHVRUKAM_ROW_BYTES; place++)
        put_row(bytes, place, null);
    for (uint32_t last = 1023; last <= 1026; last++)
        for (size_t i = 0; i < COUNT_OF(lengths); i++)
            expect_nulls(bytes, lengths[i], last, __LINE__);
}

/* ---- rows that have the form, and that have not */

#define MOST UINT32_MAX
#define HALF 8192u
#define ALL 16384u

/* A table of six rows: an array of four parts in row 0, the row that is tested in row 2, else nulls. */
static struct area lay_six(uint8_t *bytes, struct row tested, long offset)
{
    for (size_t place = 0; place < 6; place++)
        put_row(bytes, place, null);
    put_row(bytes, 0, container(JEHVRUKAM_ARRAY, 4, 6));
    put_row(bytes, 2, tested);
    return lay(bytes, 6 * JEHVRUKAM_ROW_BYTES, offset);
}

/* A row that has not the form: nothing is told of it, nor of the parts from it on; the rest is as it was. */
static void expect_damaged(struct row damaged, int line)
{
    uint8_t bytes[6 * JEHVRUKAM_ROW_BYTES];
    EACH_OFFSET(offset) {
        struct area table = lay_six(bytes, damaged, offset);
        expect_refused(&table, 2, line);
        expect_value(&table, 0, JEHVRUKAM_ARRAY, 4, 0, 0, line);
        expect_part(&table, 0, 0, 1, line);
        for (uint64_t nth = 1; nth < 4; nth++)
            expect_no_part(&table, 0, nth, line);
        expect_value(&table, 1, JEHVRUKAM_NULL, 0, 0, 0, line);
        for (uint64_t place = 3; place < 6; place++)
            expect_value(&table, place, JEHVRUKAM_NULL, 0, 0, 0, line);
        end(&table, bytes, line);
    }
    counted();
}

/* A scalar that has the form: it is told, and so are the parts after it. */
static void expect_scalar(struct row row, int line)
{
    uint8_t bytes[6 * JEHVRUKAM_ROW_BYTES];
    EACH_OFFSET(offset) {
        struct area table = lay_six(bytes, row, offset);
        expect_value(&table, 2, row.kind, 0, row.name_start, row.name_length, line);
        if (row.kind == JEHVRUKAM_INTEGER)
            expect_integer(&table, 2, (int64_t)(row.third + ((uint64_t)row.fourth << 32)) - (INT64_C(1) << 53), line);
        if (row.kind == JEHVRUKAM_STRING)
            expect_string(&table, 2, row.third, row.fourth, line);
        for (uint64_t nth = 0; nth < 4; nth++)
            expect_part(&table, 0, nth, nth + 1, line);
        end(&table, bytes, line);
    }
    counted();
}

/* A container with scalars in it that has the form: the parts of row 0 go on where it ends. */
static void expect_container(struct row row, int line)
{
    uint8_t bytes[6 * JEHVRUKAM_ROW_BYTES];
    uint64_t count = row.third, last = row.fourth;
    EACH_OFFSET(offset) {
        struct area table = lay_six(bytes, row, offset);
        expect_value(&table, 2, row.kind, count, row.name_start, row.name_length, line);
        for (uint64_t nth = 0; nth < count; nth++)
            expect_part(&table, 2, nth, 3 + nth, line);
        expect_part(&table, 0, 1, 2, line);
        for (uint64_t nth = 2; nth < 4; nth++) {
            if (last + nth - 2 < 6)
                expect_part(&table, 0, nth, last + nth - 2, line);
            else
                expect_no_part(&table, 0, nth, line);
        }
        end(&table, bytes, line);
    }
    counted();
}

/* Kinds from 1 to 7 alone. */
static void test_kinds(void)
{
    for (uint32_t kind = 0; kind < 256; kind++) {
        const struct row empty = {kind, 0, 0, 0, 0};
        if (kind == 0 || kind == JEHVRUKAM_INTEGER || kind > JEHVRUKAM_STRING)
            expect_damaged(empty, __LINE__);
        else
            expect_scalar(empty, __LINE__);
        if (kind == JEHVRUKAM_ARRAY || kind == JEHVRUKAM_OBJECT)
            expect_container(container(kind, 1, 4), __LINE__);
        else if (kind != JEHVRUKAM_INTEGER && kind != JEHVRUKAM_STRING)
            expect_damaged(container(kind, 1, 4), __LINE__);
    }
}

/* Null, false and true have two zeros. */
static void test_words(void)
{
    static const uint32_t numbers[] = {1, 2, 255, 256, 65536, 1u << 24, 1u << 31, MOST};
    for (uint32_t kind = JEHVRUKAM_NULL; kind <= JEHVRUKAM_TRUE; kind++)
        for (size_t i = 0; i < COUNT_OF(numbers); i++) {
            expect_damaged((struct row){kind, 0, 0, numbers[i], 0}, __LINE__);
            expect_damaged((struct row){kind, 0, 0, 0, numbers[i]}, __LINE__);
            expect_damaged((struct row){kind, 0, 0, 0u - numbers[i], numbers[i]}, __LINE__);
        }
}

/* An integer's number is from 1 to 2^54 - 1. */
static void test_integer_rows(void)
{
    const uint64_t top = UINT64_C(1) << 54;
    const uint64_t formed[] = {1, 2, MOST, top / 4, top / 2 - 1, top / 2, top / 2 + 1, top - 2, top - 1};
    const uint64_t damaged[] = {0, top, top + 1, top | top / 2, 2 * top, INT64_MAX, UINT64_C(1) << 63, UINT64_MAX};
    for (size_t i = 0; i < COUNT_OF(formed); i++)
        expect_scalar(integer(formed[i]), __LINE__);
    for (size_t i = 0; i < COUNT_OF(damaged); i++)
        expect_damaged(integer(damaged[i]), __LINE__);
}

/* A start and a length that lie within the strings area, or not. */
static const uint32_t within[][2] = {{0, 0}, {0, 1}, {0, ALL}, {1, ALL - 1}, {HALF, HALF}, {ALL - 1, 1}, {ALL, 0}};
static const uint32_t beyond[][2] = {{0, ALL + 1}, {1, ALL}, {HALF, HALF + 1}, {HALF + 1, HALF}, {ALL, 1}, {ALL + 1, 0},
                                     {65536, 0}, {0, 65536}, {1u << 31, 0}, {MOST, 0}, {MOST, 1}, {MOST, ALL},
                                     {MOST - ALL + 1, ALL}, {0, (1 << 24) - 1}, {MOST, (1 << 24) - 1}};

static void test_strings(void)
{
    for (size_t i = 0; i < COUNT_OF(within); i++)
        expect_scalar((struct row){JEHVRUKAM_STRING, 0, 0, within[i][0], within[i][1]}, __LINE__);
    for (size_t i = 0; i < COUNT_OF(beyond); i++)
        expect_damaged((struct row){JEHVRUKAM_STRING, 0, 0, beyond[i][0], beyond[i][1]}, __LINE__);
    expect_damaged((struct row){JEHVRUKAM_STRING, 0, 0, 1, MOST}, __LINE__);
    expect_damaged((struct row){JEHVRUKAM_STRING, 0, 0, MOST, MOST}, __LINE__);
    expect_damaged((struct row){JEHVRUKAM_STRING, 0, 0, 1u << 31, 1u << 31}, __LINE__);
}

/* The same of names, of values of every kind, though no value here is a member. */
static void test_name_rows(void)
{
    static const struct row rows[] = {
        {JEHVRUKAM_NULL, 0, 0, 0, 0},    {JEHVRUKAM_FALSE, 0, 0, 0, 0},  {JEHVRUKAM_TRUE, 0, 0, 0, 0},
        {JEHVRUKAM_INTEGER, 0, 0, 1, 0}, {JEHVRUKAM_STRING, 0, 0, 0, 1}, {JEHVRUKAM_ARRAY, 0, 0, 1, 4},
        {JEHVRUKAM_OBJECT, 0, 0, 0, 3},
    };
    for (size_t n = 0; n < COUNT_OF(rows); n++) {
        struct row row = rows[n];
        for (size_t i = 0; i < COUNT_OF(within); i++) {
            row.name_start = within[i][0], row.name_length = within[i][1];
            if (row.kind < JEHVRUKAM_ARRAY)
                expect_scalar(row, __LINE__);
            else
                expect_container(row, __LINE__);
        }
        for (size_t i = 0; i < COUNT_OF(beyond); i++) {
            row.name_start = beyond[i][0], row.name_length = beyond[i][1];
            expect_damaged(row, __LINE__);
        }
    }
}

/* Every end and count of a container in row 2 of six. */
static void test_spans(void)
{
    static const uint32_t numbers[] = {0, 1, 2, 3, 4, 5, 6, 7, 8, 1024, 65536, 1u << 31, MOST - 1, MOST};
    for (uint32_t kind = JEHVRUKAM_ARRAY; kind <= JEHVRUKAM_OBJECT; kind++)
        for (size_t c = 0; c < COUNT_OF(numbers); c++)
            for (size_t e = 0; e < COUNT_OF(numbers); e++) {
                uint32_t count = numbers[c], last = numbers[e];
                int formed = last == 3 ? count == 0 : last > 3 && last <= 6 && count > 0 && count <= last - 3;
                if (formed)
                    expect_container(container(kind, count, last), __LINE__);
                else
                    expect_damaged(container(kind, count, last), __LINE__);
            }
}

/* ---- parts */

/* These rows, and these parts of row 0; none has a number from `told` on. */
static void expect_parts(const struct row *rows, size_t count, const uint64_t *parts, size_t told, int line)
{
    uint8_t bytes[8 * JEHVRUKAM_ROW_BYTES];
    for (size_t place = 0; place < count; place++)
        put_row(bytes, place, rows[place]);
    EACH_OFFSET(offset) {
        struct area table = lay(bytes, count * JEHVRUKAM_ROW_BYTES, offset);
        expect(&table, VIEW, 0, 0, (struct told){JEHVRUKAM_DONE, rows[0].kind, rows[0].third}, line);
        for (size_t nth = 0; nth < told; nth++)
            expect_part(&table, 0, nth, parts[nth], line);
        for (size_t nth = told; nth < 10; nth++)
            expect_no_part(&table, 0, nth, line);
        for (size_t i = 0; i < COUNT_OF(far); i++)
            expect_no_part(&table, 0, far[i], line);
        end(&table, bytes, line);
    }
    counted();
}

#define PARTS(rows, told, ...) \
    expect_parts((rows), COUNT_OF(rows), (const uint64_t[]){__VA_ARGS__}, (told), __LINE__)

static void test_parts(void)
{
    const uint32_t array = JEHVRUKAM_ARRAY, object = JEHVRUKAM_OBJECT;
    const struct row zero = {0, 0, 0, 0, 0};

    /* A part within a part is none of the outer container's. */
    const struct row nested[] = {container(array, 3, 7), container(object, 1, 4), container(array, 1, 4), null, null,
                                 container(array, 0, 6), null, null};
    PARTS(nested, 3, 1, 4, 5);

    /* Parts from the count on are not there, though rows are. */
    const struct row fewer[] = {container(array, 1, 4), null, null, null, null};
    PARTS(fewer, 1, 1);

    /* The rows between permit the count, but hold fewer parts: the next row is past the container's end. */
    const struct row more[] = {container(array, 3, 4), container(array, 1, 3), null, null, null};
    PARTS(more, 2, 1, 3);

    /* A part that ends past its container, though within the rows; and one that just does not. */
    const struct row past[] = {container(array, 3, 4), null, container(array, 2, 5), null, null, null};
    PARTS(past, 1, 1);
    const struct row past_first[] = {container(object, 1, 2), container(array, 1, 3), null};
    PARTS(past_first, 0, 0);
    const struct row within_first[] = {container(object, 1, 3), container(array, 1, 3), null};
    PARTS(within_first, 1, 1);

    /* What is inside a part plays no part, nor does what stands behind the nth. */
    const struct row unseen[] = {container(array, 3, 6), container(array, 1, 3), zero, null, zero, null};
    PARTS(unseen, 2, 1, 3);

    /* A part that ends at its own row, or before: a walk over it would not go on. */
    const struct row still[] = {container(array, 2, 4), container(array, 1, 1), null, null};
    PARTS(still, 0, 0);
    const struct row back[] = {container(array, 2, 4), null, container(array, 1, 1), null};
    PARTS(back, 1, 1);
}

/* A table straight from malloc: under valgrind nothing may depend on rows that are not asked for. */
static void test_unset_rows(void)
{
    uint8_t *bytes = malloc(JEHVRUKAM_TABLE_BYTES);
    uint64_t *numbers = malloc(2 * sizeof *numbers);
    int64_t *value = malloc(sizeof *value);
    if (bytes == NULL || numbers == NULL || value == NULL)
        exit(2);
    put_row(bytes, 3, container(JEHVRUKAM_ARRAY, 2, 9));
    put_row(bytes, 4, container(JEHVRUKAM_ARRAY, 1, 6));
    put_row(bytes, 6, (struct row){JEHVRUKAM_INTEGER, 5, 7, 1, 0}); /* the least integer */
    CHECK(jehvrukam_view(bytes, JEHVRUKAM_TABLE_BYTES, 3, &numbers[0], &numbers[1]) == JEHVRUKAM_DONE);
    CHECK(numbers[0] == JEHVRUKAM_ARRAY && numbers[1] == 2);
    CHECK(jehvrukam_view_part(bytes, JEHVRUKAM_TABLE_BYTES, 3, 1, &numbers[0]) == JEHVRUKAM_DONE && numbers[0] == 6);
    CHECK(jehvrukam_view_part(bytes, JEHVRUKAM_TABLE_BYTES, 3, 2, &numbers[0]) == 1 && numbers[0] == 6);
    CHECK(jehvrukam_view_integer(bytes, JEHVRUKAM_TABLE_BYTES, 6, value) == JEHVRUKAM_DONE);
    CHECK(*value == -JEHVRUKAM_MAX_INTEGER);
    CHECK(jehvrukam_view_name(bytes, JEHVRUKAM_TABLE_BYTES, 6, &numbers[0], &numbers[1]) == JEHVRUKAM_DONE);
    CHECK(numbers[0] == 5 && numbers[1] == 7);
    CHECK(jehvrukam_view_string(bytes, JEHVRUKAM_TABLE_BYTES, 6, &numbers[0], &numbers[1]) == 1);
    CHECK(numbers[0] == 5 && numbers[1] == 7);
    free(bytes);
    free(numbers);
    free(value);
    counted();
}

int main(void)
{
    test_sample(JEHVRUKAM_TABLE_BYTES);
    test_sample(JEHVRUKAM_TABLE_BYTES + 1);
    test_sample(2 * JEHVRUKAM_TABLE_BYTES);
    test_single_values();
    test_integers();
    test_names();
    test_long_strings();
    test_nesting();
    test_many_items();
    test_other_entries();
    test_lengths();
    test_single_rows();
    test_long_tables();
    test_kinds();
    test_words();
    test_integer_rows();
    test_strings();
    test_name_rows();
    test_spans();
    test_parts();
    test_unset_rows();
    printf("%d passed, %d failed\n", passed, failed);
    return failed != 0;
}
