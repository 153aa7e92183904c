/*
 * Tests jehvrukam_evaluate from C. Every text and area stands between two pages that cannot be touched, with guard
 * bytes in what is left of its own pages; each number stands between two others. The last line is 'N passed, M failed'.
 */
#include "calls.h"

enum { RULE_TABLE, RULE_STRINGS, RECORD_TABLE, RECORD_STRINGS, CELLS, OUTPUT };
enum { STEPS = PLACE + 1, LENGTH };

static uint32_t evaluate(struct call *call, uint64_t limit)
{
    const struct area *t = call->texts, *a = call->areas;
    return jehvrukam_evaluate(t[0].bytes, t[0].length, t[1].bytes, t[1].length, limit, a[RULE_TABLE].bytes,
                              a[RULE_TABLE].length, a[RULE_STRINGS].bytes, a[RULE_STRINGS].length,
                              a[RECORD_TABLE].bytes, a[RECORD_TABLE].length, a[RECORD_STRINGS].bytes,
                              a[RECORD_STRINGS].length, a[CELLS].bytes, a[CELLS].length, a[OUTPUT].bytes,
                              a[OUTPUT].length, number_at(call, WHICH), number_at(call, PLACE),
                              number_at(call, STEPS), number_at(call, LENGTH));
}

static const struct entry evaluating = {2, 6, 4, evaluate};

static struct given given_bytes(const void *rule, size_t rule_len, const void *record, size_t record_len)
{
    const struct text none = {"", 0};
    return given_to(&evaluating, (struct text){rule, rule_len}, (struct text){record, record_len}, none);
}

static struct given given_texts(const char *rule, const char *record)
{
    return given_bytes(rule, strlen(rule), record, strlen(record));
}

static struct answer refused(uint32_t refusal, uint64_t steps)
{
    return (struct answer){refusal, {0, 0, steps, 0}, ""};
}

static struct answer unread(uint32_t refusal, uint64_t which, uint64_t place)
{
    return (struct answer){refusal, {which, place, 0, 0}, ""};
}

static struct answer answered(const char *text, uint64_t steps)
{
    return (struct answer){JEHVRUKAM_DONE, {0, 0, steps, strlen(text)}, text};
}

/* The same as a test, with each limit that matters: the steps that are needed are enough, and one less is not. */
static void expect_bytes(const void *rule, size_t rule_len, const void *record, size_t record_len,
                         struct answer expected, int line)
{
    struct given given = given_bytes(rule, rule_len, record, record_len);
    expect_call(&given, expected, line);
    if (expected.numbers[STEPS] > 0 && expected.refusal != JEHVRUKAM_OUT_OF_STEPS) {
        given.limit = expected.numbers[STEPS];
        expect_call(&given, expected, line);
        given.limit = expected.numbers[STEPS] - 1;
        expect_call(&given, refused(JEHVRUKAM_OUT_OF_STEPS, given.limit), line);
        given.limit = 0;
        expect_call(&given, refused(JEHVRUKAM_OUT_OF_STEPS, 0), line);
    }
    counted();
}

static void expect(const char *rule, const char *record, struct answer expected, int line)
{
    expect_bytes(rule, strlen(rule), record, strlen(record), expected, line);
}

#define GIVES(rule, record, text, steps) expect((rule), (record), answered((text), (steps)), __LINE__)
#define REFUSED(rule, record, refusal, steps) expect((rule), (record), refused((refusal), (steps)), __LINE__)
#define UNREAD(rule, record, refusal, which, place) \
    expect((rule), (record), unread((refusal), (which), (place)), __LINE__)

#define RECORD_A "{\"a\":1}"
#define SUM "{\"reduce\":[[1,2,3],{\"+\":[{\"var\":\"current\"},{\"var\":\"accumulator\"}]},0]}"
#define BORN "{\"dccDateOfBirth\":[\"2000\"]}"
#define SHIFTED "{\"plusTime\":[\"2000-01-31\",1,\"month\"]}"

/* ---- the tests */

/* The table of document 01, with its steps. */
static void test_paper(void)
{
    GIVES("{\"===\":[{\"var\":\"a\"},1]}", RECORD_A, "true", 3);
    GIVES("{\"and\":[0,{\"+\":[\"a\",1]}]}", RECORD_A, "0", 2);
    GIVES("{\"!\":[[]]}", RECORD_A, "true", 2);
    REFUSED("{\">\":[3,2,\"x\"]}", RECORD_A, 7, 4);
    REFUSED("{\"+\":[9007199254740991,1]}", RECORD_A, 9, 3);
    GIVES(SUM, RECORD_A, "6", 15);
    GIVES("{\"plusTime\":[\"2020-01-31\",1,\"month\"]}", RECORD_A, "\"2020-03-02T00:00:00.000Z\"", 2);
    GIVES("{\"plusTime\":[\"2020-02-29\",1,\"year\"]}", RECORD_A, "\"2021-03-01T00:00:00.000Z\"", 2);
    GIVES("{\"extractFromUVCI\":[\"URN:UVCI\",0]}", RECORD_A, "null", 2);
}

/* Refusal 1: an area below its stated size or a limit above 1,000, whatever the texts; nothing is touched. */
static void test_sizes(void)
{
    static const struct {
        const char *rule, *record;
        struct answer answer;
    } texts[] = {
        {"1", "2", {JEHVRUKAM_DONE, {0, 0, 1, 1}, "1"}},
        {"", "", {JEHVRUKAM_NOT_JSON, {JEHVRUKAM_RULE, 0, 0, 0}, ""}},
        {"{}", "", {JEHVRUKAM_NOT_RULE, {0, 0, 0, 0}, ""}},
        {"1", "1.5", {JEHVRUKAM_BAD_NUMBER, {JEHVRUKAM_RECORD, 1, 0, 0}, ""}},
        {"{\"+\":[1,\"\"]}", "{}", {JEHVRUKAM_WRONG_KIND, {0, 0, 3, 0}, ""}},
    };
    static const uint64_t limits[] = {JEHVRUKAM_MAX_STEPS, JEHVRUKAM_MAX_STEPS + 1, UINT64_C(1) << 32,
                                      (UINT64_C(1) << 32) + 1, UINT64_C(1) << 63, UINT64_MAX};
    for (size_t i = 0; i < sizeof texts / sizeof *texts; i++) {
        for (size_t l = 0; l < sizeof limits / sizeof *limits; l++) {
            struct given given = given_texts(texts[i].rule, texts[i].record);
            given.limit = limits[l];
            expect_call(&given, limits[l] > JEHVRUKAM_MAX_STEPS ? refused(1, 0) : texts[i].answer, __LINE__);
            counted();
        }
        struct given given = given_texts(texts[i].rule, texts[i].record);
        expect_sizes(&given, texts[i].answer, __LINE__);
        given.lengths[OUTPUT] = 0; /* before 12, which this would be */
        given.lengths[CELLS]--;
        expect_call(&given, refused(1, 0), __LINE__);
        counted();
    }
}

/* Refusals 2 to 10, each with its numbers. */
static void test_refusals(void)
{
    UNREAD("", RECORD_A, 2, JEHVRUKAM_RULE, 0);
    UNREAD("[1,]", RECORD_A, 2, JEHVRUKAM_RULE, 3);
    UNREAD("{\"!\":[1],\"!\":[1]}", RECORD_A, 3, JEHVRUKAM_RULE, 11);
    UNREAD("\"\\udc00\"", RECORD_A, 3, JEHVRUKAM_RULE, 1);
    UNREAD("{\"+\":[1,2.5]}", RECORD_A, 4, JEHVRUKAM_RULE, 9);
    UNREAD("[9007199254740992]", RECORD_A, 4, JEHVRUKAM_RULE, 16);
    UNREAD("1", "", 2, JEHVRUKAM_RECORD, 0);
    UNREAD("1", "{\"a\":1", 2, JEHVRUKAM_RECORD, 6);
    UNREAD("1", "{\"a\":1,\"a\":1}", 3, JEHVRUKAM_RECORD, 9);
    UNREAD("1", "1e3", 4, JEHVRUKAM_RECORD, 1);

    char deep[66];
    memset(deep, '[', 33);
    memset(deep + 33, ']', 33);
    expect_bytes(deep, sizeof deep, "1", 1, unread(5, JEHVRUKAM_RULE, 32), __LINE__);
    expect_bytes("1", 1, deep, sizeof deep, unread(5, JEHVRUKAM_RECORD, 32), __LINE__);
    static char spaces[JEHVRUKAM_MAX_TEXT_BYTES + 1];
    memset(spaces, ' ', sizeof spaces);
    expect_bytes(spaces, sizeof spaces, "1", 1, unread(5, JEHVRUKAM_RULE, JEHVRUKAM_MAX_TEXT_BYTES), __LINE__);
    expect_bytes("1", 1, spaces, sizeof spaces, unread(5, JEHVRUKAM_RECORD, JEHVRUKAM_MAX_TEXT_BYTES), __LINE__);

    REFUSED("null", RECORD_A, 6, 0);
    REFUSED("{}", RECORD_A, 6, 0);
    REFUSED("{\"or\":[1,2]}", RECORD_A, 6, 0);
    REFUSED("{\"!\":true}", RECORD_A, 6, 0);
    REFUSED("{\"+\":[1]}", RECORD_A, 6, 0);
    REFUSED("{\"if\":[true,1,{\"var\":\"a..b\"}]}", RECORD_A, 6, 0); /* in an operand that no run begins */
    REFUSED("{\"plusTime\":[\"2020\",1,\"week\"]}", RECORD_A, 6, 0);

    REFUSED("{\"+\":[1,\"x\"]}", RECORD_A, 7, 3);
    REFUSED("{\"===\":[1,[]]}", RECORD_A, 7, 3);
    REFUSED("{\"reduce\":[{\"var\":\"a\"},1,2]}", RECORD_A, 7, 3);
    REFUSED("{\"and\":[1,{\"plusTime\":[\"2020\",0,\"day\"]}]}", RECORD_A, 7, 4);
    REFUSED("{\"plusTime\":[{\"var\":\"b\"},0,\"day\"]}", RECORD_A, 7, 2);
    REFUSED("{\"plusTime\":[\"2021-02-29\",0,\"day\"]}", RECORD_A, 8, 2);
    REFUSED("{\"dccDateOfBirth\":[\"2021-02-01T00:00:00Z\"]}", RECORD_A, 8, 2);
    REFUSED("{\"+\":[-9007199254740991,-1]}", RECORD_A, 9, 3);
    REFUSED("{\"plusTime\":[\"9999-12-31\",1,\"day\"]}", RECORD_A, 9, 2);
    REFUSED("{\"+\":[\"a\",{\"+\":[9007199254740991,1]}]}", RECORD_A, 9, 5); /* before the 7 of the other operand */

    static const uint64_t limits[] = {0, 1, 7, 14};
    for (size_t i = 0; i < sizeof limits / sizeof *limits; i++) {
        struct given given = given_texts(SUM, RECORD_A);
        given.limit = limits[i];
        expect_call(&given, refused(10, limits[i]), __LINE__);
        counted();
    }
}

/* The order of the refusals: what is wrong behind the first fault is not told. */
static void test_order(void)
{
    UNREAD("[", "[", 2, JEHVRUKAM_RULE, 1);
    REFUSED("{}", "[", 6, 0);
    UNREAD("{\"+\":[1,\"x\"]}", "[", 2, JEHVRUKAM_RECORD, 1);
    struct given given = given_texts("1", "[");
    given.limit = 0;
    expect_call(&given, unread(2, JEHVRUKAM_RECORD, 1), __LINE__);
    given.lengths[OUTPUT] = 0;
    expect_call(&given, unread(2, JEHVRUKAM_RECORD, 1), __LINE__);
    given = given_texts("{\"+\":[1,\"x\"]}", RECORD_A);
    given.lengths[OUTPUT] = 0;
    expect_call(&given, refused(7, 3), __LINE__);
    given.limit = 2;
    expect_call(&given, refused(10, 2), __LINE__);
    counted();
}

/* What is answered, by kind. */
static void test_answers(void)
{
    GIVES("{\"var\":\"\"}", " {\"b\":[null,true,-0],\"a\\n\":\"\\u00e9\\/\"} ",
          "{\"b\":[null,true,0],\"a\\n\":\"\xc3\xa9/\"}", 1);
    GIVES("{\"var\":\"b.1\"}", "{\"b\":[1,\"x\"]}", "\"x\"", 1);
    GIVES("[1,[\"\\u0001\"],{\"var\":\"b\"}]", RECORD_A, "[1,[\"\\u0001\"],null]", 5);
    GIVES("{\"if\":[{\"var\":\"a\"},{\"in\":[{\"var\":\"a\"},[0,1]]},\"no\"]}", RECORD_A, "true", 7);
    GIVES("{\"reduce\":[[7],{\"var\":\"\"},\"i\"]}", RECORD_A, "{\"current\":7,\"accumulator\":\"i\"}", 5);
    GIVES("{\"reduce\":[[],{\"+\":[\"a\",\"b\"]},{\"var\":\"a\"}]}", RECORD_A, "1", 3);
    GIVES("{\"not-after\":[{\"dccDateOfBirth\":[\"2000\"]},{\"plusTime\":[\"2000-12-31\",0,\"day\"]},"
          "{\"plusTime\":[\"2001-01-01T00:00:00.000+00:30\",0,\"day\"]}]}", RECORD_A, "true", 7);
    GIVES("{\"extractFromUVCI\":[\"URN:UVCI:01:NL/187/37512422923\",1]}", RECORD_A, "\"NL\"", 2);
}

/* An output as long as the text, a byte shorter, none, and longer; 11 comes before 12. */
static void test_output(void)
{
    static const struct {
        const char *rule, *text;
        uint64_t steps;
    } rules[] = {
        {"1", "1", 1},
        {"{\"!\":[[]]}", "true", 2},
        {"{\"plusTime\":[\"2020-01-31\",1,\"month\"]}", "\"2020-03-02T00:00:00.000Z\"", 2},
        {"[1,\"\\n\\u0000\",{\"var\":\"\"}]", "[1,\"\\n\\u0000\",{\"a\":1}]", 4},
    };
    for (size_t i = 0; i < sizeof rules / sizeof *rules; i++) {
        size_t length = strlen(rules[i].text);
        for (size_t room = 0; room <= length + 40; room++) {
            struct given given = given_texts(rules[i].rule, RECORD_A);
            given.lengths[OUTPUT] = room;
            expect_call(&given, room < length ? refused(12, rules[i].steps) : answered(rules[i].text, rules[i].steps),
                        __LINE__);
            counted();
        }
    }
    static const size_t rooms[] = {0, 1, JEHVRUKAM_MAX_TEXT_BYTES, 3 * JEHVRUKAM_MAX_TEXT_BYTES};
    static char text[JEHVRUKAM_MAX_TEXT_BYTES];
    memset(text, 'x', sizeof text); /* in the record 16,384 bytes with its quotes, in the answer two more */
    text[0] = text[sizeof text - 1] = '"';
    for (size_t i = 0; i < sizeof rooms / sizeof *rooms; i++) {
        struct given given = given_bytes("[{\"var\":\"\"}]", 12, text, sizeof text);
        given.lengths[OUTPUT] = rooms[i];
        expect_call(&given, refused(11, 2), __LINE__);
        counted();
    }
}

/* Refusal 11 one past each limit, and what is still written. */
static void test_answer_limits(void)
{
    static char record[JEHVRUKAM_MAX_TEXT_BYTES];
    static const char whole[] = "{\"var\":\"\"}", listed[] = "[{\"var\":\"\"}]";
    size_t length = 64;

    memset(record, '[', 32);
    memset(record + 32, ']', 32);
    struct answer same = {JEHVRUKAM_DONE, {0, 0, 1, length}, record};
    expect_bytes(whole, sizeof whole - 1, record, length, same, __LINE__);
    expect_bytes(listed, sizeof listed - 1, record, length, refused(11, 2), __LINE__);

    record[0] = '[';
    for (size_t i = 0; i < JEHVRUKAM_MAX_VALUES - 1; i++)
        memcpy(record + 1 + 2 * i, "0,", 2);
    length = 2 * JEHVRUKAM_MAX_VALUES - 1;
    record[length - 1] = ']';
    same.numbers[LENGTH] = length;
    expect_bytes(whole, sizeof whole - 1, record, length, same, __LINE__);
    expect_bytes(listed, sizeof listed - 1, record, length, refused(11, 2), __LINE__);

    memset(record, 'x', sizeof record);
    record[0] = record[sizeof record - 1] = '"';
    same.numbers[LENGTH] = sizeof record;
    expect_bytes(whole, sizeof whole - 1, record, sizeof record, same, __LINE__);
    expect_bytes(listed, sizeof listed - 1, record, sizeof record, refused(11, 2), __LINE__);
}

/* 1,000 steps are done, 1,001 are refused; and a list that doubles with each item is too large, not too slow. */
static void test_steps(void)
{
    static char rule[JEHVRUKAM_MAX_TEXT_BYTES];
    rule[0] = '[';
    for (size_t i = 0; i < JEHVRUKAM_MAX_STEPS; i++)
        memcpy(rule + 1 + 2 * i, "1,", 2);
    size_t length = 2 * (JEHVRUKAM_MAX_STEPS - 1) + 1; /* the array, and 999 items */
    rule[length - 1] = ']';
    struct answer same = {JEHVRUKAM_DONE, {0, 0, JEHVRUKAM_MAX_STEPS, length}, rule};
    expect_bytes(rule, length, RECORD_A, strlen(RECORD_A), same, __LINE__);
    rule[length - 1] = ',';
    rule[length + 1] = ']';
    expect_bytes(rule, length + 2, RECORD_A, strlen(RECORD_A), refused(10, JEHVRUKAM_MAX_STEPS), __LINE__);

    static char record[JEHVRUKAM_MAX_TEXT_BYTES];
    static const char doubles[] =
        "{\"reduce\":[{\"var\":\"\"},[{\"var\":\"accumulator\"},{\"var\":\"accumulator\"}],0]}";
    record[0] = '[';
    for (size_t i = 0; i < 330; i++)
        memcpy(record + 1 + 2 * i, "0,", 2);
    record[2 * 330] = ']';
    expect_bytes(doubles, sizeof doubles - 1, record, 2 * 330 + 1, refused(11, 3 + 3 * 330), __LINE__);
}

/* Each item of an array by its number, and what is behind the last: items that are arrays, and objects in whose members more is to be found. */
static void test_items(void)
{
    static const int counts[] = {3, 4, 5, 16, 23, 24, 25, 26, 31, 32, 33, 63, 64, 65, 127, 128, 255};
    static char record[JEHVRUKAM_MAX_TEXT_BYTES];
    char rule[64], text[64];
    for (size_t c = 0; c < sizeof counts / sizeof *counts; c++) {
        size_t length = (size_t)sprintf(record, "[");
        for (int i = 0; i < counts[c]; i++)
            length += (size_t)sprintf(record + length, i % 3 == 0 ? "%s[%d]" : i % 3 == 1 ? "%s{\"a\":[%d]}" : "%s%d",
                                      i > 0 ? "," : "", i);
        sprintf(record + length, "]");
        for (int i = 0; i <= counts[c]; i += counts[c] > 65 && i > 4 && i < counts[c] - 4 ? 13 : 1) {
            sprintf(rule, "{\"var\":\"%d%s\"}", i, i % 3 == 1 ? ".a.0" : "");
            sprintf(text, i % 3 == 0 ? "[%d]" : "%d", i);
            GIVES(rule, record, i < counts[c] ? text : "null", 1);
        }
    }
}

/* The deepest rules: each operation nests two deep, an array one. */
static void test_deep(void)
{
    char rule[512];
    size_t length = 0;
    for (int i = 0; i < 16; i++)
        length += (size_t)sprintf(rule + length, "{\"!\":[");
    length += (size_t)sprintf(rule + length, "1");
    for (int i = 0; i < 16; i++)
        length += (size_t)sprintf(rule + length, "]}");
    GIVES(rule, RECORD_A, "true", 17);

    memset(rule, '[', 32);
    memset(rule + 32, ']', 32);
    rule[64] = 0;
    GIVES(rule, RECORD_A, rule, 32);
}

/* Rows of 16 bytes, strings, zeros. */
static void test_layout(void)
{
    static const char rule[] = "{\"===\":[{\"var\":\"a\"},-1]}", record[] = "{\"a\":-1,\"b\\n\":[\"x\"]}";
    static const uint8_t rule_rows[] = {
        7, 0, 0, 0,  0, 0, 0, 0,  1, 0, 0, 0,              5, 0, 0, 0,
        6, 3, 0, 0,  0, 0, 0, 0,  2, 0, 0, 0,              5, 0, 0, 0,
        7, 0, 0, 0,  0, 0, 0, 0,  1, 0, 0, 0,              4, 0, 0, 0,
        5, 3, 0, 0,  3, 0, 0, 0,  6, 0, 0, 0,              1, 0, 0, 0,
        4, 0, 0, 0,  0, 0, 0, 0,  0xff, 0xff, 0xff, 0xff,  0xff, 0xff, 0x1f, 0,
    };
    static const uint8_t record_rows[] = {
        7, 0, 0, 0,  0, 0, 0, 0,  2, 0, 0, 0,              4, 0, 0, 0,
        4, 1, 0, 0,  0, 0, 0, 0,  0xff, 0xff, 0xff, 0xff,  0xff, 0xff, 0x1f, 0,
        6, 2, 0, 0,  1, 0, 0, 0,  1, 0, 0, 0,              4, 0, 0, 0,
        5, 0, 0, 0,  0, 0, 0, 0,  3, 0, 0, 0,              1, 0, 0, 0,
    };
    static const struct front fronts[] = {
        {rule_rows, sizeof rule_rows}, {"===vara", 7}, {record_rows, sizeof record_rows}, {"ab\nx", 4}, {"", 0},
        {"true", 4},
    };
    struct given given = given_texts(rule, record);
    given.limit = 3;
    expect_fronts(given, answered("true", 3), fronts, __LINE__);
}

/* Areas used again hold nothing of the call before, and refusal 1 leaves them as they are. */
static void test_reuse(void)
{
    static uint8_t areas[OUTPUT][JEHVRUKAM_CELLS_BYTES], output[JEHVRUKAM_MAX_TEXT_BYTES];
    static const size_t stated[OUTPUT] = {JEHVRUKAM_TABLE_BYTES, JEHVRUKAM_STRINGS_BYTES, JEHVRUKAM_TABLE_BYTES,
                                          JEHVRUKAM_STRINGS_BYTES, JEHVRUKAM_CELLS_BYTES};
    static const struct {
        const char *rule, *record, *text;
        uint32_t refusal;
        uint64_t limit;
    } calls[] = {
        {SUM, "[\"a long record\",{\"with\":\"names\"}]", "6", 0, 15},
        {"{\"var\":\"1.with\"}", "[\"a long record\",{\"with\":\"names\"}]", "\"names\"", 0, 1},
        {"2", "3", "2", 0, 1000},
        {"2", "3", "2", 1, 1001}, /* as the call before left it */
        {SUM, "[1]", "", 10, 14},
        {"{\"var\":\"\"}", "[[[[1]]]]", "[[[[1]]]]", 0, 7},
    };
    uint64_t which = NO_NUMBER, place = NO_NUMBER, steps = NO_NUMBER, length = NO_NUMBER;
    for (int round = 0; round < 3; round++)
        for (size_t i = 0; i < sizeof calls / sizeof *calls; i++) {
            uint32_t refusal = jehvrukam_evaluate(
                (const uint8_t *)calls[i].rule, strlen(calls[i].rule), (const uint8_t *)calls[i].record,
                strlen(calls[i].record), calls[i].limit, areas[0], stated[0], areas[1], stated[1], areas[2], stated[2],
                areas[3], stated[3], areas[4], stated[4], output, sizeof output, &which, &place, &steps, &length);
            size_t size = strlen(calls[i].text);
            CHECK(refusal == calls[i].refusal && which == 0 && place == 0 && length == size);
            CHECK(memcmp(output, calls[i].text, size) == 0 && all_are(output + size, sizeof output - size, 0));
            CHECK(all_are(areas[CELLS], stated[CELLS], 0));
            for (int area = 0; area < OUTPUT; area++)
                CHECK(refusal != JEHVRUKAM_OUT_OF_STEPS || all_are(areas[area], stated[area], 0));
            counted();
        }
}

/* Every operation, with a value and with each refusal that it has, in areas that nothing has written: no cell is read
 * but what this call put there. An operation of one operand stands alone too, so that no cell beside it is written. */
static void test_unset_areas(void)
{
    const struct {
        const char *rule, *record;
        struct answer answer;
    } calls[] = {
        {"[1,2", RECORD_A, unread(2, JEHVRUKAM_RULE, 4)},
        {"{\"+\":[1,2,3]}", RECORD_A, refused(6, 0)},
        {"{\"!\":[\"x\"]}", "{\"a\":1,\"a\":2}", unread(3, JEHVRUKAM_RECORD, 9)},
        {"{\"var\":\"\"}", RECORD_A, answered(RECORD_A, 1)},
        {"[]", RECORD_A, answered("[]", 1)},
        {"[[\"a text of more than 26 bytes\"]]", RECORD_A, refused(12, 3)},
        {"{\"if\":[{\"var\":\"b\"},1,[{\"var\":\"a\"}]]}", RECORD_A, answered("[1]", 4)},
        {"{\"and\":[{\"var\":\"a\"},\"x\"]}", RECORD_A, answered("\"x\"", 3)},
        {"{\"and\":[" BORN ",1]}", RECORD_A, refused(7, 3)},
        {"{\"reduce\":[{\"var\":\"l\"},[{\"var\":\"accumulator\"},{\"var\":\"current\"}],[]]}",
         "{\"l\":[1,\"x\",[2]]}", answered("[[[[],1],\"x\"],[2]]", 12)},
        {"{\"reduce\":[[0,1],{\"!\":[{\"var\":\"current\"}]},2]}", RECORD_A, answered("false", 9)},
        {"{\"reduce\":[{\"var\":\"a\"},1,2]}", RECORD_A, refused(7, 3)},
        {"{\"===\":[{\"var\":\"a\"},1]}", RECORD_A, answered("true", 3)},
        {"{\"===\":[1,[]]}", RECORD_A, refused(7, 3)},
        {"{\"in\":[\"x\",[{\"var\":\"a\"},\"x\"]]}", RECORD_A, answered("true", 5)},
        {"{\"in\":[\"x\",\"x\"]}", RECORD_A, refused(7, 3)},
        {"{\"+\":[{\"var\":\"a\"},-2]}", RECORD_A, answered("-1", 3)},
        {"{\"+\":[{\"var\":\"a\"},\"x\"]}", RECORD_A, refused(7, 3)},
        {"{\"+\":[{\"var\":\"a\"},9007199254740991]}", RECORD_A, refused(9, 3)},
        {"{\">\":[2,1]}", RECORD_A, answered("true", 3)},
        {"{\"<\":[1,2,2]}", RECORD_A, answered("false", 4)},
        {"{\">=\":[3,2,2]}", RECORD_A, answered("true", 4)},
        {"{\"<=\":[2,1]}", RECORD_A, answered("false", 3)},
        {"{\">\":[3,2,\"x\"]}", RECORD_A, refused(7, 4)},
        {"{\"after\":[" BORN "," SHIFTED "]}", RECORD_A, answered("true", 5)},
        {"{\"before\":[" BORN "," SHIFTED "," BORN "]}", RECORD_A, answered("false", 7)},
        {"{\"not-after\":[" SHIFTED "," BORN "," BORN "]}", RECORD_A, answered("true", 7)},
        {"{\"not-before\":[" SHIFTED "," BORN "]}", RECORD_A, answered("false", 5)},
        {"{\"not-before\":[" BORN ",\"2000\"]}", RECORD_A, refused(7, 4)},
        {"{\"!\":[{\"var\":\"a\"}]}", RECORD_A, answered("false", 2)},
        {"{\"!\":[[]]}", RECORD_A, answered("true", 2)},
        {"{\"!\":[" BORN "]}", RECORD_A, refused(7, 3)},
        {BORN, RECORD_A, answered("\"2000-12-31T00:00:00.000Z\"", 2)},
        {"{\"dccDateOfBirth\":[{\"var\":\"a\"}]}", RECORD_A, refused(7, 2)},
        {"{\"dccDateOfBirth\":[\"x\"]}", RECORD_A, refused(8, 2)},
        {SHIFTED, RECORD_A, answered("\"2000-03-02T00:00:00.000Z\"", 2)},
        {"{\"plusTime\":[{\"var\":\"a\"},1,\"hour\"]}", RECORD_A, refused(7, 2)},
        {"{\"plusTime\":[\"x\",1,\"hour\"]}", RECORD_A, refused(8, 2)},
        {"{\"plusTime\":[\"9999-12-31\",1,\"day\"]}", RECORD_A, refused(9, 2)},
        {"{\"extractFromUVCI\":[\"URN:UVCI:01:NL\",1]}", RECORD_A, answered("\"NL\"", 2)},
        {"{\"extractFromUVCI\":[{\"var\":\"b\"},0]}", RECORD_A, answered("null", 2)},
        {"{\"extractFromUVCI\":[{\"var\":\"a\"},0]}", RECORD_A, refused(7, 2)},
    };
    for (size_t i = 0; i < sizeof calls / sizeof *calls; i++) {
        struct given given = given_texts(calls[i].rule, calls[i].record);
        given.lengths[OUTPUT] = 26; /* an instant's text */
        expect_unset(&given, calls[i].answer, __LINE__);
        if (calls[i].answer.numbers[STEPS] > 0) {
            given.limit = calls[i].answer.numbers[STEPS] - 1;
            expect_unset(&given, refused(JEHVRUKAM_OUT_OF_STEPS, given.limit), __LINE__);
        }
    }
}

static void test_every_part(void)
{
    struct given given = given_texts("{\"if\":[{\"in\":[{\"var\":\"b.0\"},[\"x\\u00e9\",3]]},"
                                     "{\"plusTime\":[\"2020-01-31T10:00:00+1\",1,\"month\"]},-1]}",
                                     "{\"b\":[\"x\xc3\xa9\",null],\"c\":{}}");
    expect_parts(&given, __LINE__);
}

int main(void)
{
    test_paper();
    test_sizes();
    test_refusals();
    test_order();
    test_answers();
    test_output();
    test_answer_limits();
    test_steps();
    test_items();
    test_deep();
    test_layout();
    test_reuse();
    test_unset_areas();
    test_every_part();
    printf("%d passed, %d failed\n", passed, failed);
    return failed == 0 ? 0 : 1;
}
