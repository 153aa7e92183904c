/*
 * Tests jehvrukam_read from C. Every area stands between two pages that cannot be touched, with guard bytes in what is
 * left of its own pages. The last line is 'N passed, M failed'.
 */
#include "areas.h"
#include "jehvrukam.h"

#include <inttypes.h>
#include <stdio.h>
#include <stdlib.h>
#include <string.h>

#define NO_PLACE UINT64_C(0x0123456789abcdef)

/* ---- one call, with the text, the areas and the place in areas of their own */

struct call {
    struct area text, table, strings;
    uint64_t places[3]; /* the middle one is lent */
    uint32_t refusal;
};

static struct call lend(const void *text, size_t text_len, size_t table_len, size_t strings_len, long offset)
{
    struct call call;
    call.text = area_at(text_len, offset);
    if (text_len > 0)
        memcpy(call.text.bytes, text, text_len);
    call.table = area_at(table_len, offset);
    call.strings = area_at(strings_len, offset);
    for (int i = 0; i < 3; i++)
        call.places[i] = NO_PLACE;
    call.refusal = UINT32_MAX;
    return call;
}

static void run(struct call *call)
{
    call->refusal = jehvrukam_read(call->text.bytes, call->text.length, call->table.bytes, call->table.length,
                                   call->strings.bytes, call->strings.length, &call->places[1]);
}

/* Checks that nothing but areas and place was touched, and ends the call. */
static void end(struct call *call, const void *text, int line)
{
    check(guards_kept(&call->text) && guards_kept(&call->table) && guards_kept(&call->strings), line, "guards kept");
    check(call->text.length == 0 || memcmp(call->text.bytes, text, call->text.length) == 0, line, "text kept");
    check(call->places[0] == NO_PLACE && call->places[2] == NO_PLACE, line, "nothing beside the place touched");
    release(&call->text);
    release(&call->table);
    release(&call->strings);
}

/* A text is refused so, at this place, and both areas are zero. */
static void expect_refused(const void *text, size_t length, uint32_t refusal, uint64_t place, int line)
{
    for (long offset = -1; offset <= 1; offset++) {
        struct call call = lend(text, length, JEHVRUKAM_TABLE_BYTES, JEHVRUKAM_STRINGS_BYTES, offset);
        run(&call);
        if (!check(call.refusal == refusal && call.places[1] == place, line, "refused so"))
            printf("  given %" PRIu32 " at %" PRIu64 ", expected %" PRIu32 " at %" PRIu64 "\n", call.refusal,
                   call.places[1], refusal, place);
        check(all_are(call.table.bytes, call.table.length, 0), line, "table zero");
        check(all_are(call.strings.bytes, call.strings.length, 0), line, "strings zero");
        end(&call, text, line);
    }
    counted();
}

/* A text is read to these rows and strings, with zeros after them. */
static void expect_read(const void *text, size_t length, const uint8_t *rows, size_t row_count, const void *strings,
                        size_t strings_used, int line)
{
    for (long offset = -1; offset <= 1; offset++) {
        struct call call = lend(text, length, JEHVRUKAM_TABLE_BYTES, JEHVRUKAM_STRINGS_BYTES, offset);
        run(&call);
        size_t used = row_count * JEHVRUKAM_ROW_BYTES;
        if (!check(call.refusal == JEHVRUKAM_DONE && call.places[1] == 0, line, "read"))
            printf("  given %" PRIu32 " at %" PRIu64 "\n", call.refusal, call.places[1]);
        check(memcmp(call.table.bytes, rows, used) == 0, line, "rows");
        check(all_are(call.table.bytes + used, call.table.length - used, 0), line, "zeros after the rows");
        check(memcmp(call.strings.bytes, strings, strings_used) == 0, line, "strings");
        check(all_are(call.strings.bytes + strings_used, call.strings.length - strings_used, 0), line,
              "zeros after the strings");
        end(&call, text, line);
    }
    counted();
}

#define REFUSED(text, refusal, place) expect_refused((text), sizeof(text) - 1, (refusal), (place), __LINE__)

/* A small text, its rows and its strings. */
static const char sample[] = " {\"a\":[true,-1,\"x\\n\"],\"\":{\"\\u0062\":null},\"c\xc3\xa9\":[],\"z\":false} ";
static const uint8_t sample_rows[] = {
    7, 0, 0, 0,  0, 0, 0, 0,  4, 0, 0, 0,              9, 0, 0, 0,
    6, 1, 0, 0,  0, 0, 0, 0,  3, 0, 0, 0,              5, 0, 0, 0,
    3, 0, 0, 0,  0, 0, 0, 0,  0, 0, 0, 0,              0, 0, 0, 0,
    4, 0, 0, 0,  0, 0, 0, 0,  0xff, 0xff, 0xff, 0xff,  0xff, 0xff, 0x1f, 0,
    5, 0, 0, 0,  0, 0, 0, 0,  1, 0, 0, 0,              2, 0, 0, 0,
    7, 0, 0, 0,  3, 0, 0, 0,  1, 0, 0, 0,              7, 0, 0, 0,
    1, 1, 0, 0,  3, 0, 0, 0,  0, 0, 0, 0,              0, 0, 0, 0,
    6, 3, 0, 0,  4, 0, 0, 0,  0, 0, 0, 0,              8, 0, 0, 0,
    2, 1, 0, 0,  7, 0, 0, 0,  0, 0, 0, 0,              0, 0, 0, 0,
};
static const char sample_strings[] = "ax\nbc\xc3\xa9z";

/* ---- the tests */

/* Refusal 1: an area below its stated size, whatever the text; nothing is touched. */
static void test_sizes(void)
{
    static const size_t tables[] = {0, 1, 16, 16383, 16384, JEHVRUKAM_TABLE_BYTES - 1, JEHVRUKAM_TABLE_BYTES,
                                    JEHVRUKAM_TABLE_BYTES + 1, 2 * JEHVRUKAM_TABLE_BYTES};
    static const size_t strings[] = {0, 1, JEHVRUKAM_STRINGS_BYTES - 1, JEHVRUKAM_STRINGS_BYTES,
                                     JEHVRUKAM_STRINGS_BYTES + 1, 2 * JEHVRUKAM_STRINGS_BYTES};
    static uint8_t long_text[JEHVRUKAM_MAX_TEXT_BYTES + 1];
    memset(long_text, ' ', sizeof long_text);
    const struct {
        const void *text;
        size_t length;
        uint32_t refusal;
        uint64_t place;
    } texts[] = {
        {"1", 1, JEHVRUKAM_DONE, 0},
        {"", 0, JEHVRUKAM_NOT_JSON, 0},
        {"[1.5", 4, JEHVRUKAM_BAD_NUMBER, 2},
        {long_text, sizeof long_text, JEHVRUKAM_TOO_LARGE, JEHVRUKAM_MAX_TEXT_BYTES},
    };
    for (size_t t = 0; t < sizeof tables / sizeof *tables; t++)
        for (size_t s = 0; s < sizeof strings / sizeof *strings; s++)
            for (size_t i = 0; i < sizeof texts / sizeof *texts; i++) {
                struct call call = lend(texts[i].text, texts[i].length, tables[t], strings[s], i % 2 ? 0 : -1);
                run(&call);
                if (tables[t] < JEHVRUKAM_TABLE_BYTES || strings[s] < JEHVRUKAM_STRINGS_BYTES) {
                    CHECK(call.refusal == JEHVRUKAM_BAD_ARGUMENT);
                    CHECK(call.places[1] == NO_PLACE);
                    CHECK(all_are(call.table.bytes, call.table.length, NOISE));
                    CHECK(all_are(call.strings.bytes, call.strings.length, NOISE));
                } else {
                    CHECK(call.refusal == texts[i].refusal);
                    CHECK(call.places[1] == texts[i].place);
                    size_t rows = call.refusal == JEHVRUKAM_DONE ? JEHVRUKAM_ROW_BYTES : 0;
                    CHECK(all_are(call.table.bytes + rows, call.table.length - rows, 0));
                    CHECK(all_are(call.strings.bytes, call.strings.length, 0));
                }
                end(&call, texts[i].text, __LINE__);
                counted();
            }
}

/* Refusals 2 to 4 with their places. */
static void test_refusals(void)
{
    REFUSED("", 2, 0);
    REFUSED(" \t\r\n", 2, 4);
    REFUSED("\xef\xbb\xbf" "1", 2, 0);
    REFUSED("nul", 2, 3);
    REFUSED("nulL", 2, 3);
    REFUSED("1 2", 2, 2);
    REFUSED("01", 2, 1);
    REFUSED("-", 2, 1);
    REFUSED("[1,]", 2, 3);
    REFUSED("{\"a\" 1}", 2, 5);
    REFUSED("\"\x1f\"", 2, 1);
    REFUSED("\"\\x\"", 2, 2);
    REFUSED("\"\\u00g0\"", 2, 5);
    REFUSED("\"\xc3(\"", 2, 2);
    REFUSED("\"\xe0\x80\x80\"", 2, 2);
    REFUSED("\"\xed\xa0\x80\"", 2, 2);
    REFUSED("\"\xc0\x80\"", 2, 1);
    REFUSED("\"\xf4\x90\x80\x80\"", 2, 2);
    REFUSED("\"\xf0\x9f\x98", 2, 4);
    REFUSED("\0", 2, 0);
    REFUSED("1\0", 2, 1);
    REFUSED("{\"a\":1,\"a\"", 3, 9);
    REFUSED("{\"a\":1,\"\\u0061\":2}", 3, 14);
    REFUSED("{\"\":1,\"b\":{\"\":1},\"\":2}", 3, 18);
    REFUSED("{\"a\":1,\"a", 2, 9);
    REFUSED("\"\\ud800\"", 3, 1);
    REFUSED("\"\\ud800", 3, 1);
    REFUSED("\"\\ud800\\u12", 3, 1);
    REFUSED("\"\\ud80", 2, 6);
    REFUSED("\"\\ud83d\\ude00\\ude00\"", 3, 13);
    REFUSED("1.", 4, 1);
    REFUSED("1.0", 4, 1);
    REFUSED("[1.5", 4, 2);
    REFUSED("0e0", 4, 1);
    REFUSED("-0.0", 4, 2);
    REFUSED("1E", 4, 1);
    REFUSED("9007199254740992", 4, 15);
    REFUSED("-9007199254740992", 4, 16);
    REFUSED("10000000000000000000000x", 4, 16);
    REFUSED("[1.5}", 4, 2);
    REFUSED("[x,1.5]", 2, 1);
}

/* Refusal 5 at each limit, and what still reads. */
static void test_limits(void)
{
    static uint8_t text[JEHVRUKAM_MAX_TEXT_BYTES + 2];
    static uint8_t rows[JEHVRUKAM_MAX_VALUES * JEHVRUKAM_ROW_BYTES];

    /* Thirty-two nested empty arrays read; thirty-three give 5 at place 32. */
    memset(rows, 0, sizeof rows);
    for (size_t i = 0; i < 32; i++) {
        rows[16 * i] = JEHVRUKAM_ARRAY;
        rows[16 * i + 8] = i < 31;
        rows[16 * i + 12] = 32;
    }
    memset(text, '[', 33);
    memset(text + 32, ']', 32);
    expect_read(text, 64, rows, 32, "", 0, __LINE__);
    memset(text, '[', 33);
    memset(text + 33, ']', 33);
    expect_refused(text, 66, 5, 32, __LINE__);
    expect_refused(text, 33, 5, 32, __LINE__);
    expect_refused(text, 32, 2, 32, __LINE__);

    /* An array with 1,023 items reads; the first byte of one more value is the place. */
    memset(rows, 0, sizeof rows);
    rows[0] = JEHVRUKAM_ARRAY;
    rows[8] = 1023 & 255, rows[9] = 1023 >> 8;
    rows[12] = 1024 & 255, rows[13] = 1024 >> 8;
    for (size_t i = 1; i < JEHVRUKAM_MAX_VALUES; i++)
        rows[16 * i] = JEHVRUKAM_NULL;
    text[0] = '[';
    for (size_t i = 0; i < 1024; i++)
        memcpy(text + 1 + 5 * i, "null,", 5);
    text[5 * 1023] = ']';
    expect_read(text, 5 * 1023 + 1, rows, JEHVRUKAM_MAX_VALUES, "", 0, __LINE__);
    text[5 * 1023] = ',';
    expect_refused(text, 5 * 1023 + 1, 2, 5 * 1023 + 1, __LINE__);
    expect_refused(text, 5 * 1023 + 2, 5, 5 * 1023 + 1, __LINE__);
    text[5 * 1023 + 1] = '?';
    expect_refused(text, 5 * 1023 + 2, 2, 5 * 1023 + 1, __LINE__);

    /* 16,384 bytes read, of white space or in one string; one byte more is refused before anything else. */
    static const uint8_t one[16] = {JEHVRUKAM_INTEGER, 0, 0, 0, 0, 0, 0, 0, 1, 0, 0, 0, 0, 0, 0x20, 0};
    memset(text, ' ', sizeof text);
    text[16383] = '1';
    expect_read(text, 16384, one, 1, "", 0, __LINE__);
    expect_refused(text, 16385, 5, 16384, __LINE__);
    expect_refused(text, 16386, 5, 16384, __LINE__);
    text[0] = 0xff;
    expect_refused(text, 16384, 2, 0, __LINE__);
    expect_refused(text, 16385, 5, 16384, __LINE__);
    static const uint8_t string[16] = {JEHVRUKAM_STRING, 0, 0, 0, 0, 0, 0, 0, 0, 0, 0, 0, 0xfe, 0x3f, 0, 0};
    memset(text, 'x', sizeof text);
    text[0] = text[16383] = '"';
    expect_read(text, 16384, string, 1, text + 1, 16382, __LINE__);
}

/* The same bytes wherever the areas begin, and in areas larger than stated. */
static void test_layout(void)
{
    size_t length = sizeof sample - 1, rows = sizeof sample_rows / JEHVRUKAM_ROW_BYTES;
    expect_read(sample, length, sample_rows, rows, sample_strings, sizeof sample_strings - 1, __LINE__);
    for (long offset = 0; offset < 33; offset++) {
        size_t more = (size_t)offset * 7;
        struct call call = lend(sample, length, JEHVRUKAM_TABLE_BYTES + more, JEHVRUKAM_STRINGS_BYTES + more, offset);
        run(&call);
        CHECK(call.refusal == JEHVRUKAM_DONE && call.places[1] == 0);
        CHECK(memcmp(call.table.bytes, sample_rows, sizeof sample_rows) == 0);
        CHECK(all_are(call.table.bytes + sizeof sample_rows, call.table.length - sizeof sample_rows, 0));
        CHECK(memcmp(call.strings.bytes, sample_strings, sizeof sample_strings - 1) == 0);
        size_t used = sizeof sample_strings - 1;
        CHECK(all_are(call.strings.bytes + used, call.strings.length - used, 0));
        end(&call, sample, __LINE__);
        counted();
    }
}

/* Areas used again hold nothing of the text before. */
static void test_reuse(void)
{
    static uint8_t long_text[JEHVRUKAM_MAX_TEXT_BYTES], table[JEHVRUKAM_TABLE_BYTES], strings[JEHVRUKAM_STRINGS_BYTES];
    uint64_t place = NO_PLACE;
    memset(long_text, 'y', sizeof long_text);
    long_text[0] = long_text[sizeof long_text - 1] = '"';
    for (int round = 0; round < 3; round++) {
        CHECK(jehvrukam_read(long_text, sizeof long_text, table, sizeof table, strings, sizeof strings, &place) == 0);
        CHECK(strings[16381] == 'y' && strings[16382] == 0 && place == 0);
        CHECK(jehvrukam_read((const uint8_t *)sample, sizeof sample - 1, table, sizeof table, strings, sizeof strings,
                             &place) == 0);
        CHECK(memcmp(table, sample_rows, sizeof sample_rows) == 0);
        CHECK(all_are(table + sizeof sample_rows, sizeof table - sizeof sample_rows, 0));
        CHECK(memcmp(strings, sample_strings, sizeof sample_strings - 1) == 0);
        CHECK(all_are(strings + sizeof sample_strings - 1, sizeof strings - sizeof sample_strings + 1, 0));
        CHECK(jehvrukam_read(long_text, sizeof long_text - 1, table, sizeof table, strings, sizeof strings,
                             &place) == 2);
        CHECK(place == sizeof long_text - 1);
        CHECK(all_are(table, sizeof table, 0) && all_are(strings, sizeof strings, 0));
        CHECK(jehvrukam_read(long_text, 1, table, sizeof table - 1, strings, sizeof strings, &place) == 1);
        CHECK(place == sizeof long_text - 1);
        counted();
    }
}

/* Areas straight from malloc, exactly as long as stated: under valgrind nothing may depend on what they held. */
static void test_unset_areas(void)
{
    static const char *const texts[] = {"[\"a\",{\"b\":-7}]", "[\"a\",{\"b\":-7.5}]",
                                        "{\"a\":{\"a\":1},\"b\":2,\"b\":3}"};
    for (size_t i = 0; i < sizeof texts / sizeof *texts; i++) {
        size_t length = strlen(texts[i]);
        uint8_t *text = malloc(length);
        uint8_t *table = malloc(JEHVRUKAM_TABLE_BYTES);
        uint8_t *strings = malloc(JEHVRUKAM_STRINGS_BYTES);
        uint64_t *place = malloc(sizeof *place);
        if (text == NULL || table == NULL || strings == NULL || place == NULL)
            exit(2);
        memcpy(text, texts[i], length);
        uint32_t refusal = jehvrukam_read(text, length, table, JEHVRUKAM_TABLE_BYTES, strings, JEHVRUKAM_STRINGS_BYTES,
                                          place);
        size_t rows = refusal == 0 ? 4 * JEHVRUKAM_ROW_BYTES : 0, used = refusal == 0 ? 2 : 0;
        CHECK(refusal == (i == 0 ? 0u : i == 1 ? 4u : 3u));
        CHECK(*place == (i == 0 ? 0u : i == 1 ? 12u : 21u));
        CHECK(refusal != 0 || memcmp(strings, "ab", 2) == 0);
        CHECK(all_are(table + rows, JEHVRUKAM_TABLE_BYTES - rows, 0));
        CHECK(all_are(strings + used, JEHVRUKAM_STRINGS_BYTES - used, 0));
        free(text);
        free(table);
        free(strings);
        free(place);
        counted();
    }
}

/* Each begin and each end of the sample, with untouchable pages before and behind: read alike wherever it stands. */
static void test_every_part(void)
{
    for (size_t from = 0; from < sizeof sample; from++)
        for (size_t to = from; to < sizeof sample; to += from == 0 ? 1 : 7) {
            struct call first = lend(sample + from, to - from, JEHVRUKAM_TABLE_BYTES, JEHVRUKAM_STRINGS_BYTES, 0);
            struct call last = lend(sample + from, to - from, JEHVRUKAM_TABLE_BYTES, JEHVRUKAM_STRINGS_BYTES, -1);
            run(&first);
            run(&last);
            CHECK(first.refusal == last.refusal && first.places[1] == last.places[1]);
            CHECK(memcmp(first.table.bytes, last.table.bytes, JEHVRUKAM_TABLE_BYTES) == 0);
            CHECK(memcmp(first.strings.bytes, last.strings.bytes, JEHVRUKAM_STRINGS_BYTES) == 0);
            end(&first, sample + from, __LINE__);
            end(&last, sample + from, __LINE__);
            counted();
        }
}

int main(void)
{
    test_sizes();
    test_refusals();
    test_limits();
    test_layout();
    test_reuse();
    test_unset_areas();
    test_every_part();
    printf("%d passed, %d failed\n", passed, failed);
    return failed != 0;
}
