/*
 * Tests jehvrukam_check, jehvrukam_fits and jehvrukam_evaluate_checked from C. Every text and area stands between two
 * pages that cannot be touched, with guard bytes in what is left of its own pages; each number stands between two
 * others. The last line is 'N passed, M failed'.
 */
#include "calls.h"

enum { TOLD = PLACE + 1, WORDS = TOLD, FITS, STEPS, LENGTH };
enum { RULE_TABLE, RULE_STRINGS, SHEET_TABLE, SHEET_STRINGS, RECORD_TABLE, RECORD_STRINGS, CELLS, OUTPUT };

/* ---- the entries */

static uint32_t check_rule(struct call *call, uint64_t limit)
{
    const struct area *t = call->texts, *a = call->areas;
    (void)limit;
    return jehvrukam_check(t[0].bytes, t[0].length, t[1].bytes, t[1].length, a[0].bytes, a[0].length, a[1].bytes,
                           a[1].length, a[2].bytes, a[2].length, a[3].bytes, a[3].length, number_at(call, WHICH),
                           number_at(call, PLACE), number_at(call, TOLD));
}

static uint32_t fit_record(struct call *call, uint64_t limit)
{
    const struct area *t = call->texts, *a = call->areas;
    (void)limit;
    return jehvrukam_fits(t[0].bytes, t[0].length, t[1].bytes, t[1].length, a[0].bytes, a[0].length, a[1].bytes,
                          a[1].length, a[2].bytes, a[2].length, a[3].bytes, a[3].length, number_at(call, WHICH),
                          number_at(call, PLACE), number_at(call, TOLD));
}

static uint32_t evaluate_checked(struct call *call, uint64_t limit)
{
    const struct area *t = call->texts, *a = call->areas;
    return jehvrukam_evaluate_checked(
        t[0].bytes, t[0].length, t[1].bytes, t[1].length, t[2].bytes, t[2].length, limit, a[RULE_TABLE].bytes,
        a[RULE_TABLE].length, a[RULE_STRINGS].bytes, a[RULE_STRINGS].length, a[SHEET_TABLE].bytes,
        a[SHEET_TABLE].length, a[SHEET_STRINGS].bytes, a[SHEET_STRINGS].length, a[RECORD_TABLE].bytes,
        a[RECORD_TABLE].length, a[RECORD_STRINGS].bytes, a[RECORD_STRINGS].length, a[CELLS].bytes, a[CELLS].length,
        a[OUTPUT].bytes, a[OUTPUT].length, number_at(call, WHICH), number_at(call, PLACE), number_at(call, WORDS),
        number_at(call, FITS), number_at(call, STEPS), number_at(call, LENGTH));
}

static const struct entry checking = {2, 4, 3, check_rule}, fitting = {2, 4, 3, fit_record},
                          evaluating = {3, 8, 6, evaluate_checked};

static const struct text none = {"", 0};

static struct given given_two(const struct entry *entry, const char *one, const char *other)
{
    return given_to(entry, text_of(one), text_of(other), none);
}

static struct given given_three(const char *rule, const char *sheet, const char *record)
{
    return given_to(&evaluating, text_of(rule), text_of(sheet), text_of(record));
}

/* Which and place are told with 2 to 5 only. */
static struct answer unread(uint32_t refusal, uint64_t which, uint64_t place)
{
    return (struct answer){refusal, {which, place, 0, 0, 0, 0}, ""};
}

static struct answer refused(uint32_t refusal)
{
    return unread(refusal, 0, 0);
}

/* Of jehvrukam_check the words, of jehvrukam_fits whether it fits. */
static struct answer told(uint64_t number)
{
    return (struct answer){JEHVRUKAM_DONE, {0, 0, number, 0, 0, 0}, ""};
}

/* Of an evaluation that was begun, whatever its end. */
static struct answer ended(uint32_t refusal, uint64_t words, uint64_t fits, uint64_t steps, const char *text)
{
    return (struct answer){refusal, {0, 0, words, fits, steps, strlen(text)}, text};
}

static void expect(struct given given, struct answer expected, int line)
{
    expect_call(&given, expected, line);
    counted();
}

#define CHECKED(rule, sheet, words) expect(given_two(&checking, (rule), (sheet)), told(words), __LINE__)
#define REFUSED(rule, sheet, refusal) expect(given_two(&checking, (rule), (sheet)), refused(refusal), __LINE__)
#define FITTED(sheet, record, fits) expect(given_two(&fitting, (sheet), (record)), told(fits), __LINE__)
#define NO_SHEET(sheet) expect(given_two(&fitting, (sheet), "1"), refused(JEHVRUKAM_NOT_SHEET), __LINE__)
#define ENDS(rule, sheet, record, refusal, words, fits, steps, text) \
    expect_steps((rule), (sheet), (record), ended((refusal), (words), (fits), (steps), (text)), __LINE__)

/* With each limit that matters: the steps that are needed are enough, and one less is not. Words and fits are told as
 * soon as evaluation has begun. */
static void expect_steps(const char *rule, const char *sheet, const char *record, struct answer expected, int line)
{
    struct given given = given_three(rule, sheet, record);
    uint64_t words = expected.numbers[WORDS], fits = expected.numbers[FITS], steps = expected.numbers[STEPS];
    expect_call(&given, expected, line);
    given.limit = steps;
    expect_call(&given, expected, line);
    given.limit = steps - 1;
    expect_call(&given, ended(JEHVRUKAM_OUT_OF_STEPS, words, fits, steps - 1, ""), line);
    given.limit = 0;
    expect_call(&given, ended(JEHVRUKAM_OUT_OF_STEPS, words, fits, 0, ""), line);
    counted();
}

#define NULL_WORD JEHVRUKAM_WORD_NULL
#define BOOLEAN JEHVRUKAM_WORD_BOOLEAN
#define INTEGER JEHVRUKAM_WORD_INTEGER
#define STRING JEHVRUKAM_WORD_STRING
#define DATE JEHVRUKAM_WORD_DATE
#define DAY JEHVRUKAM_WORD_DAY
#define INTEGERS JEHVRUKAM_WORD_INTEGERS
#define STRINGS JEHVRUKAM_WORD_STRINGS
#define ARRAY JEHVRUKAM_WORD_ARRAY
#define OBJECT JEHVRUKAM_WORD_OBJECT
#define INSTANT JEHVRUKAM_WORD_INSTANT
#define ANYTHING (NULL_WORD | BOOLEAN | INTEGER | STRING | ARRAY | OBJECT)

#define SHEET_A "{\"a\":[\"integer\"]}"
#define RECORD_A "{\"a\":1}"
#define SUM "{\"reduce\":[[1,2,3],{\"+\":[{\"var\":\"current\"},{\"var\":\"accumulator\"}]},0]}"

/* ---- the tests */

static const uint64_t bits[] = {NULL_WORD, BOOLEAN, INTEGER, STRING, DATE, DAY, INTEGERS, STRINGS, ARRAY, OBJECT};
static const char *const spelled[] = {"null", "boolean", "integer", "string", "date", "day", "integers", "strings",
                                      "array", "object"};
#define LISTED (sizeof bits / sizeof *bits)

/* The bits are those of the papers; each word comes back as it was listed, alone and with each other one. */
static void test_words(void)
{
    char sheet[64];
    for (size_t i = 0; i < LISTED; i++) {
        CHECK(bits[i] == UINT64_C(1) << i);
        for (size_t j = 0; j < LISTED; j++) {
            if (i == j)
                sprintf(sheet, "{\"a\":[\"%s\"]}", spelled[i]);
            else
                sprintf(sheet, "{\"a\":[\"%s\",\"%s\"]}", spelled[i], spelled[j]);
            CHECKED("{\"var\":\"a\"}", sheet, bits[i] | bits[j]);
        }
    }
    CHECK(INSTANT == 1024);
    CHECKED("{\"dccDateOfBirth\":[\"2020\"]}", "{}", INSTANT);
}

/* Words that the check finds, and rules that it does not accept. */
static void test_check(void)
{
    CHECKED("{\"===\":[{\"var\":\"a\"},1]}", SHEET_A, BOOLEAN);
    REFUSED("{\"and\":[0,{\"+\":[\"a\",1]}]}", SHEET_A, 13); /* also what no run begins */
    CHECKED("{\"!\":[[]]}", SHEET_A, BOOLEAN);
    REFUSED("{\">\":[3,2,\"x\"]}", SHEET_A, 13);
    CHECKED("{\"+\":[9007199254740991,1]}", SHEET_A, INTEGER); /* 9 is not the check's business */
    CHECKED(SUM, SHEET_A, INTEGER);
    CHECKED("{\"plusTime\":[\"2020-01-31\",1,\"month\"]}", SHEET_A, INSTANT);
    CHECKED("{\"extractFromUVCI\":[\"URN:UVCI\",0]}", SHEET_A, NULL_WORD | STRING);
    CHECKED("true", "{}", BOOLEAN);
    CHECKED("\"2021-02-29\"", "{}", STRING);
    CHECKED("\"2020-02-29\"", "{}", DAY);
    CHECKED("\"2020-02-29T00:00:00Z\"", "{}", DATE);
    CHECKED("[]", "{}", INTEGERS);
    CHECKED("[\"\",\"2020\"]", "{}", STRINGS);
    CHECKED("[1,\"\"]", "{}", ARRAY);
    CHECKED("{\"var\":\"\"}", SHEET_A, ANYTHING);
    CHECKED("{\"var\":\"a.b\"}", SHEET_A, ANYTHING);
    CHECKED("{\"var\":\"\\u0061\"}", "{\"\\u0061\":[\"d\\u0061y\"]}", DAY);
    CHECKED("{\"if\":[{\"var\":\"\"},1,\"x\"]}", SHEET_A, INTEGER | STRING);
    CHECKED("{\"and\":[{\"var\":\"a\"},[]]}", SHEET_A, INTEGER | INTEGERS);
    REFUSED("{\"and\":[1,{\"dccDateOfBirth\":[\"2020\"]}]}", SHEET_A, 13);
    REFUSED("{\"dccDateOfBirth\":[\"2020-01-01T00:00:00Z\"]}", SHEET_A, 13);
    REFUSED("{\"+\":[{\"var\":\"b\"},1]}", SHEET_A, 13);
    CHECKED("{\"reduce\":[[1],{\"var\":\"a\"},{\"var\":\"n\"}]}", "{\"a\":[\"integer\"],\"n\":[\"null\"]}", NULL_WORD);
    REFUSED("{\"reduce\":[[1],{\"var\":\"current\"},\"x\"]}", "{}", 13);
    REFUSED("{\"reduce\":[[[]],{\"!\":[{\"var\":\"current\"}]},true]}", "{}", 13); /* it might be an instant */
}

/* What is no sheet, and sheets of 256 members and of one more. */
static void test_sheets(void)
{
    NO_SHEET("null");
    NO_SHEET("[]");
    NO_SHEET("{\"\":[\"null\"]}");
    NO_SHEET("{\"a..b\":[\"null\"]}");
    NO_SHEET("{\"a\":[]}");
    NO_SHEET("{\"a\":\"null\"}");
    NO_SHEET("{\"a\":[\"null\",\"null\"]}");
    NO_SHEET("{\"a\":[\"instant\"]}");
    NO_SHEET("{\"a\":[\"Null\"]}");
    NO_SHEET("{\"a\":[\"null\"],\"b\":[1]}");
    REFUSED("1", "[]", 14);
    expect(given_three("1", "[]", "1"), refused(14), __LINE__);
    FITTED("{}", "1", 1);

    static char sheet[JEHVRUKAM_MAX_TEXT_BYTES];
    for (int members = 255; members <= 258; members++) {
        size_t length = (size_t)sprintf(sheet, "{");
        for (int i = 0; i < members; i++)
            length += (size_t)sprintf(sheet + length, "%s\"m%d\":[\"null\"]", i > 0 ? "," : "", i);
        sprintf(sheet + length, "}");
        expect(given_two(&fitting, sheet, "{}"), members <= 256 ? told(1) : refused(14), __LINE__);
        expect(given_two(&checking, "{\"var\":\"m255\"}", sheet),
               members == 255 ? told(ANYTHING) : members == 256 ? told(NULL_WORD) : refused(14), __LINE__);
    }
}

/* Each word on values of each kind. */
static void test_fits(void)
{
    static const struct {
        const char *value;
        uint64_t words; /* to which it belongs */
    } values[] = {
        {"null", NULL_WORD},
        {"false", BOOLEAN},
        {"-1", INTEGER},
        {"\"\"", STRING},
        {"\"2020-02\"", STRING | DATE | DAY},
        {"\"2020-02-30\"", STRING},
        {"\"2020-02-29T23:59:59.123456789-23:59\"", STRING | DATE},
        {"\"0000-01-01T00:00:00+1\"", STRING},
        {"[]", INTEGERS | STRINGS | ARRAY},
        {"[1,2]", INTEGERS | ARRAY},
        {"[\"\",\"2020\"]", STRINGS | ARRAY},
        {"[1,\"\"]", ARRAY},
        {"[[1]]", ARRAY},
        {"{}", OBJECT},
        {"{\"a\":[1]}", OBJECT},
    };
    char sheet[64], record[128];
    for (size_t i = 0; i < sizeof values / sizeof *values; i++)
        for (size_t j = 0; j < LISTED; j++) {
            sprintf(sheet, "{\"x.0\":[\"%s\"]}", spelled[j]);
            sprintf(record, "{\"x\":[%s]}", values[i].value);
            FITTED(sheet, record, (values[i].words & bits[j]) != 0);
        }
    FITTED("{\"a\":[\"null\"]}", "{}", 1);
    FITTED("{\"a\":[\"integer\"]}", "{}", 0);
    FITTED("{\"a.b\":[\"null\",\"day\"]}", "[1]", 1);
    FITTED("{\"a\":[\"integer\"],\"b\":[\"string\",\"integer\"]}", "{\"b\":2,\"a\":1}", 1);
    FITTED("{\"a\":[\"integer\"],\"b\":[\"string\",\"array\"]}", "{\"b\":2,\"a\":1}", 0);
    FITTED("{\"1\":[\"object\"],\"01\":[\"null\"]}", "[0,{}]", 1);
}

/* A text that does not read, in the place of each; what is wrong behind the first fault is not told. */
static void test_unread(void)
{
    static const struct {
        const char *text;
        uint32_t refusal;
        uint64_t place;
    } texts[] = {
        {"", 2, 0}, {"[1,]", 2, 3}, {"{\"a\":1,\"a\"", 3, 9}, {"\"\\udc00\"", 3, 1}, {"[1.5", 4, 2},
        {"[9007199254740992]", 4, 16},
    };
    for (size_t i = 0; i < sizeof texts / sizeof *texts; i++) {
        const char *bad = texts[i].text;
        struct answer rule = unread(texts[i].refusal, JEHVRUKAM_RULE, texts[i].place);
        struct answer sheet = unread(texts[i].refusal, JEHVRUKAM_SHEET, texts[i].place);
        struct answer record = unread(texts[i].refusal, JEHVRUKAM_RECORD, texts[i].place);
        expect(given_two(&checking, bad, "x"), rule, __LINE__);
        expect(given_two(&checking, "null", bad), refused(6), __LINE__);
        expect(given_two(&checking, "{\"+\":[1,\"\"]}", bad), sheet, __LINE__);
        expect(given_two(&fitting, bad, "x"), sheet, __LINE__);
        expect(given_two(&fitting, "[]", bad), refused(14), __LINE__);
        expect(given_two(&fitting, "{}", bad), record, __LINE__);
        expect(given_three(bad, "x", "x"), rule, __LINE__);
        expect(given_three("null", bad, "x"), refused(6), __LINE__);
        expect(given_three("{\"+\":[1,\"\"]}", bad, "x"), sheet, __LINE__);
        expect(given_three("{\"+\":[1,\"\"]}", "[]", bad), refused(14), __LINE__);
        expect(given_three("{\"+\":[1,\"\"]}", "{}", bad), refused(13), __LINE__);
        expect(given_three("1", "{}", bad), record, __LINE__);
        struct given given = given_three("1", "{}", bad);
        given.limit = 0;
        given.lengths[OUTPUT] = 0;
        expect(given, record, __LINE__);
    }
    static char spaces[JEHVRUKAM_MAX_TEXT_BYTES + 2];
    memset(spaces, ' ', sizeof spaces - 1);
    expect(given_two(&checking, "1", spaces), unread(5, JEHVRUKAM_SHEET, JEHVRUKAM_MAX_TEXT_BYTES), __LINE__);
    expect(given_two(&fitting, spaces, "1"), unread(5, JEHVRUKAM_SHEET, JEHVRUKAM_MAX_TEXT_BYTES), __LINE__);
    expect(given_two(&fitting, "{}", spaces), unread(5, JEHVRUKAM_RECORD, JEHVRUKAM_MAX_TEXT_BYTES), __LINE__);
    expect(given_three("1", spaces, "x"), unread(5, JEHVRUKAM_SHEET, JEHVRUKAM_MAX_TEXT_BYTES), __LINE__);
}

/* Refusal 1: an area below its stated size or a limit above 1,000, whatever the texts; nothing is touched. */
static void test_sizes(void)
{
    struct given given = given_two(&checking, "{\"var\":\"a\"}", SHEET_A);
    expect_sizes(&given, told(INTEGER), __LINE__);
    given = given_two(&checking, "", "");
    expect_sizes(&given, unread(2, JEHVRUKAM_RULE, 0), __LINE__);
    given = given_two(&checking, "{\"+\":[1,\"\"]}", "{}");
    expect_sizes(&given, refused(13), __LINE__);
    given = given_two(&fitting, SHEET_A, RECORD_A);
    expect_sizes(&given, told(1), __LINE__);
    given = given_two(&fitting, "", "");
    expect_sizes(&given, unread(2, JEHVRUKAM_SHEET, 0), __LINE__);
    given = given_two(&fitting, "1", "x");
    expect_sizes(&given, refused(14), __LINE__);
    given = given_three("{\"var\":\"a\"}", SHEET_A, RECORD_A);
    expect_sizes(&given, ended(0, INTEGER, 1, 1, "1"), __LINE__);
    given = given_three("", "", "");
    expect_sizes(&given, unread(2, JEHVRUKAM_RULE, 0), __LINE__);
    given = given_three("{\"+\":[{\"var\":\"a\"},1]}", SHEET_A, "{\"a\":\"x\"}");
    expect_sizes(&given, ended(7, INTEGER, 0, 3, ""), __LINE__);
    given.lengths[OUTPUT] = 0; /* before 12, which this would be */
    given.lengths[SHEET_STRINGS]--;
    expect(given, refused(1), __LINE__);

    static const uint64_t limits[] = {JEHVRUKAM_MAX_STEPS + 1, UINT64_C(1) << 32, (UINT64_C(1) << 32) + 1,
                                      UINT64_C(1) << 63, UINT64_MAX};
    for (size_t i = 0; i < sizeof limits / sizeof *limits; i++) {
        given = given_three("1", "{}", "2");
        given.limit = limits[i];
        expect(given, refused(1), __LINE__);
        given = given_three("", "", "");
        given.limit = limits[i];
        expect(given, refused(1), __LINE__);
    }
}

/* Evaluation with a sheet: what is told of a record that fits and of one that does not, with each end. */
static void test_evaluation(void)
{
    static const char equal[] = "{\"===\":[{\"var\":\"a\"},1]}", sum[] = "{\"+\":[{\"var\":\"a\"},9007199254740990]}";
    static const char shift[] = "{\"plusTime\":[{\"var\":\"d\"},1,\"month\"]}", dated[] = "{\"d\":[\"date\"]}";
    ENDS(equal, SHEET_A, RECORD_A, 0, BOOLEAN, 1, 3, "true");
    ENDS(equal, SHEET_A, "{\"a\":\"1\"}", 0, BOOLEAN, 0, 3, "false"); /* evaluated all the same */
    ENDS(equal, SHEET_A, "{\"a\":[]}", 7, BOOLEAN, 0, 3, "");
    ENDS(equal, SHEET_A, "{}", 0, BOOLEAN, 0, 3, "false");
    ENDS(sum, SHEET_A, RECORD_A, 0, INTEGER, 1, 3, "9007199254740991");
    ENDS(sum, SHEET_A, "{\"a\":2}", 9, INTEGER, 1, 3, "");
    ENDS(sum, SHEET_A, "{\"a\":null}", 7, INTEGER, 0, 3, "");
    ENDS(shift, dated, "{\"d\":\"2020-01-31\"}", 0, INSTANT, 1, 2, "\"2020-03-02T00:00:00.000Z\"");
    ENDS(shift, dated, "{\"d\":\"9999-12-31\"}", 9, INSTANT, 1, 2, "");
    ENDS(shift, dated, "{\"d\":\"2020-02-30\"}", 8, INSTANT, 0, 2, "");
    ENDS(shift, dated, "{\"d\":1}", 7, INSTANT, 0, 2, "");
    ENDS(SUM, "{}", "null", 0, INTEGER, 1, 15, "6");
    ENDS("{\"var\":\"\"}", SHEET_A, " {\"a\":1,\"b\\n\":[\"x\"]} ", 0, ANYTHING, 1, 1, "{\"a\":1,\"b\\n\":[\"x\"]}");
    ENDS("{\"if\":[{\"var\":\"b\"},\"2020\",[]]}", SHEET_A, "{\"a\":0}", 0, DAY | INTEGERS, 1, 3, "[]");

    /* 12 with each output that is too short, 11 with any; words and fits are told. */
    for (size_t room = 0; room <= 40; room++) {
        struct given given = given_three(shift, dated, "{\"d\":\"2020-01-31\"}");
        given.lengths[OUTPUT] = room;
        expect(given, room < 26 ? ended(12, INSTANT, 1, 2, "")
                                : ended(0, INSTANT, 1, 2, "\"2020-03-02T00:00:00.000Z\""), __LINE__);
    }
    char nested[65];
    memset(nested, '[', 32);
    memset(nested + 32, ']', 32);
    nested[64] = 0;
    static const size_t rooms[] = {0, 66, 3 * JEHVRUKAM_MAX_TEXT_BYTES};
    for (size_t i = 0; i < sizeof rooms / sizeof *rooms; i++) {
        struct given given = given_three("[{\"var\":\"\"}]", "{}", nested);
        given.lengths[OUTPUT] = rooms[i];
        expect(given, ended(11, ARRAY, 1, 2, ""), __LINE__);
        given = given_three("[{\"var\":\"\"}]", SHEET_A, nested);
        given.lengths[OUTPUT] = rooms[i];
        expect(given, ended(11, ARRAY, 0, 2, ""), __LINE__);
    }
}

/* Refusal, steps, length and output are those of jehvrukam_evaluate wherever evaluation begins. */
static void test_same_as_evaluate(void)
{
    static const char *const rules[] = {"{\"+\":[{\"var\":\"a\"},1]}", "{\"and\":[{\"var\":\"a\"},\"x\"]}", SUM,
                                        "[{\"var\":\"a\"},{\"dccDateOfBirth\":[\"2020\"]}]",
                                        "{\"===\":[{\"var\":\"a\"},{\"extractFromUVCI\":[\"a/b\",1]}]}"};
    static const char *const records[] = {RECORD_A, "{}", "{\"a\":\"x\"}", "{\"a\":{}}", "[1]", "{\"a\":0}"};
    static const uint64_t limits[] = {0, 2, 3, JEHVRUKAM_MAX_STEPS};
    for (size_t i = 0; i < sizeof rules / sizeof *rules; i++)
        for (size_t j = 0; j < sizeof records / sizeof *records; j++)
            for (size_t k = 0; k < sizeof limits / sizeof *limits; k++) {
                struct given given = given_three(rules[i], SHEET_A, records[j]);
                struct call call = lend(&given, 0);
                run(&call, limits[k]);
                const struct area *t = call.texts, *output = &call.areas[OUTPUT];
                struct area areas[5], text = area_at(output->length, 0);
                for (int a = 0; a < 5; a++)
                    areas[a] = area_at(stated_of(&evaluating, a == 4 ? CELLS : a), 0);
                uint64_t which, place, steps, length;
                uint32_t refusal = jehvrukam_evaluate(
                    t[0].bytes, t[0].length, t[2].bytes, t[2].length, limits[k], areas[0].bytes, areas[0].length,
                    areas[1].bytes, areas[1].length, areas[2].bytes, areas[2].length, areas[3].bytes, areas[3].length,
                    areas[4].bytes, areas[4].length, text.bytes, text.length, &which, &place, &steps, &length);
                CHECK(call.refusal == refusal && *number_at(&call, STEPS) == steps);
                CHECK(*number_at(&call, LENGTH) == length && *number_at(&call, WORDS) != 0);
                CHECK(memcmp(output->bytes, text.bytes, text.length) == 0);
                for (int a = 0; a < 5; a++)
                    release(&areas[a]);
                release(&text);
                end(&call, &given, __LINE__);
                counted();
            }
}

/* The bytes of all areas after success: rows of 16 bytes, strings, zeros. */
static void test_layout(void)
{
    static const char rule[] = "{\"!\":[{\"var\":\"a\"}]}", sheet[] = "{\"a\":[\"day\"]}";
    static const char record[] = "{\"a\":\"2020\"}";
    static const uint8_t rule_rows[] = {
        7, 0, 0, 0,  0, 0, 0, 0,  1, 0, 0, 0,  4, 0, 0, 0,
        6, 1, 0, 0,  0, 0, 0, 0,  1, 0, 0, 0,  4, 0, 0, 0,
        7, 0, 0, 0,  0, 0, 0, 0,  1, 0, 0, 0,  4, 0, 0, 0,
        5, 3, 0, 0,  1, 0, 0, 0,  4, 0, 0, 0,  1, 0, 0, 0,
    };
    static const uint8_t sheet_rows[] = {
        7, 0, 0, 0,  0, 0, 0, 0,  1, 0, 0, 0,  3, 0, 0, 0,
        6, 1, 0, 0,  0, 0, 0, 0,  1, 0, 0, 0,  3, 0, 0, 0,
        5, 0, 0, 0,  0, 0, 0, 0,  1, 0, 0, 0,  3, 0, 0, 0,
    };
    static const uint8_t record_rows[] = {
        7, 0, 0, 0,  0, 0, 0, 0,  1, 0, 0, 0,  2, 0, 0, 0,
        5, 1, 0, 0,  0, 0, 0, 0,  1, 0, 0, 0,  4, 0, 0, 0,
    };
    static const struct front fronts[] = {
        {rule_rows, sizeof rule_rows}, {"!vara", 5}, {sheet_rows, sizeof sheet_rows}, {"aday", 4},
        {record_rows, sizeof record_rows}, {"a2020", 5}, {"", 0}, {"false", 5},
    };
    expect_fronts(given_two(&checking, rule, sheet), told(BOOLEAN), fronts, __LINE__);
    expect_fronts(given_two(&fitting, sheet, record), told(1), fronts + 2, __LINE__);
    expect_fronts(given_three(rule, sheet, record), ended(0, BOOLEAN, 1, 2, "false"), fronts, __LINE__);
}

/* Each end of each entry, and the operations of one operand, in areas that nothing has written. */
static void test_unset_areas(void)
{
    static const char rule[] = "{\"in\":[{\"var\":\"a\"},[1,2]]}", denial[] = "{\"!\":[{\"var\":\"a\"}]}";
    static const char birth[] = "{\"dccDateOfBirth\":[{\"var\":\"d\"}]}", dated[] = "{\"d\":[\"day\"]}";
    static const char shift[] = "{\"plusTime\":[{\"var\":\"d\"},1,\"month\"]}", record[] = "{\"d\":\"2020-01-31\"}";
    static const char part[] = "{\"extractFromUVCI\":[{\"var\":\"d\"},1]}";
    const struct {
        struct given given;
        struct answer answer;
    } calls[] = {
        {given_two(&checking, rule, SHEET_A), told(BOOLEAN)},
        {given_two(&checking, "[1,2", SHEET_A), unread(2, JEHVRUKAM_RULE, 4)},
        {given_two(&checking, "{\"+\":[1]}", SHEET_A), refused(6)},
        {given_two(&checking, rule, "{\"a\":[1,1.5]}"), unread(4, JEHVRUKAM_SHEET, 9)},
        {given_two(&checking, rule, "{\"a\":[]}"), refused(14)},
        {given_two(&checking, rule, "{\"a\":[\"array\"]}"), refused(13)},
        {given_two(&fitting, SHEET_A, RECORD_A), told(1)},
        {given_two(&fitting, SHEET_A, "{\"a\":\"x\"}"), told(0)},
        {given_two(&fitting, "{\"a\":\"x\"}", RECORD_A), refused(14)},
        {given_two(&fitting, SHEET_A, "{\"a\":1,\"a\":1}"), unread(3, JEHVRUKAM_RECORD, 9)},
        {given_three(rule, SHEET_A, RECORD_A), ended(0, BOOLEAN, 1, 5, "true")},
        {given_three(rule, SHEET_A, "{\"a\":{}}"), ended(7, BOOLEAN, 0, 5, "")},
        {given_three(rule, "{}", RECORD_A), refused(13)},
        {given_three(rule, "1", RECORD_A), refused(14)},
        {given_three(rule, SHEET_A, "{\"a\":"), unread(2, JEHVRUKAM_RECORD, 5)},
        {given_three(denial, SHEET_A, RECORD_A), ended(0, BOOLEAN, 1, 2, "false")},
        {given_three(denial, SHEET_A, "{}"), ended(0, BOOLEAN, 0, 2, "true")},
        {given_three(birth, dated, record), ended(0, INSTANT, 1, 2, "\"2020-01-31T00:00:00.000Z\"")},
        {given_three(birth, dated, "{\"d\":\"x\"}"), ended(8, INSTANT, 0, 2, "")},
        {given_three(shift, dated, record), ended(0, INSTANT, 1, 2, "\"2020-03-02T00:00:00.000Z\"")},
        {given_three(shift, dated, "{\"d\":\"9999-12-31\"}"), ended(9, INSTANT, 1, 2, "")},
        {given_three(shift, dated, RECORD_A), ended(7, INSTANT, 0, 2, "")},
        {given_three(part, "{\"d\":[\"string\"]}", "{\"d\":\"URN:UVCI:01:NL\"}"),
         ended(0, NULL_WORD | STRING, 1, 2, "\"NL\"")},
        {given_three(part, "{\"d\":[\"string\"]}", "{\"d\":1}"), ended(7, NULL_WORD | STRING, 0, 2, "")},
    };
    for (size_t i = 0; i < sizeof calls / sizeof *calls; i++)
        expect_unset(&calls[i].given, calls[i].answer, __LINE__);
}

static void test_every_part(void)
{
    static const char rule[] = "{\"if\":[{\"in\":[{\"var\":\"b.0\"},[\"x\\u00e9\",3]]},\"2020\",-1]}";
    static const char sheet[] = "{\"b.0\":[\"string\",\"n\\u0075ll\"],\"c\":[\"object\"]}";
    static const char record[] = "{\"b\":[\"x\xc3\xa9\",null],\"c\":{}}";
    struct given given = given_two(&checking, rule, sheet);
    expect_parts(&given, __LINE__);
    given = given_two(&fitting, sheet, record);
    expect_parts(&given, __LINE__);
    given = given_three(rule, sheet, record);
    expect_parts(&given, __LINE__);
}

int main(void)
{
    test_words();
    test_check();
    test_sheets();
    test_fits();
    test_unread();
    test_sizes();
    test_evaluation();
    test_same_as_evaluate();
    test_layout();
    test_unset_areas();
    test_every_part();
    printf("%d passed, %d failed\n", passed, failed);
    return failed == 0 ? 0 : 1;
}
