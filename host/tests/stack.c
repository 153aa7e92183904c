/*
 * How many bytes of stack a call of an entry of the library, or of writer_write, uses: the stack of a thread is filled
 * with a pattern, and what no longer has it after the call was used. Prints the most over texts that nest, branch and
 * decode in different ways, over rules that nest 32 deep, evaluated, checked and both, over sheets and records that fit
 * them, over values that nest 32 deep in rows and in cells, and over what the viewer is asked. The last line is
 * 'N passed, M failed': one for each text, rule, sheet, value and question, that it stayed below its limit.
 */
#include "jehvrukam.h"
#include "test_writer.h"

#include <pthread.h>
#include <stdio.h>
#include <stdlib.h>
#include <string.h>

#define STACK_BYTES (1024 * 1024)
#define PATTERN 0xa5

static uint8_t rule_table[JEHVRUKAM_TABLE_BYTES], sheet_table[JEHVRUKAM_TABLE_BYTES], table[JEHVRUKAM_TABLE_BYTES];
static uint8_t rule_strings[JEHVRUKAM_STRINGS_BYTES], sheet_strings[JEHVRUKAM_STRINGS_BYTES];
static uint8_t strings[JEHVRUKAM_STRINGS_BYTES];
static uint8_t cells[JEHVRUKAM_CELLS_BYTES];
static uint8_t output[JEHVRUKAM_MAX_TEXT_BYTES];
static size_t own; /* bytes of stack that a thread uses without the call */
static int passed, failed;

/* What an entry may use, and the most that a call of it did. */
struct use {
    size_t limit, most;
};

static struct use reading = {16 * 1024, 0}, evaluating = {32 * 1024, 0}, writing = {16 * 1024, 0};
static struct use checking = {32 * 1024, 0}, fitting = {32 * 1024, 0}, evaluating_checked = {32 * 1024, 0};
static struct use viewing = {1024, 0};

struct call {
    const uint8_t *text;
    size_t length;
};

/* What an entry takes of these. */
struct evaluation {
    struct call rule, record, sheet;
    uint32_t refusal;
};

static void *nothing(void *argument)
{
    return argument;
}

static void *read_text(void *argument)
{
    struct call *call = argument;
    uint64_t place = 0;
    jehvrukam_read(call->text, call->length, table, sizeof table, strings, sizeof strings, &place);
    return argument;
}

static void *evaluate_texts(void *argument)
{
    struct evaluation *given = argument;
    uint64_t which = 0, place = 0, steps = 0, length = 0;
    given->refusal = jehvrukam_evaluate(given->rule.text, given->rule.length, given->record.text, given->record.length,
                                        JEHVRUKAM_MAX_STEPS, rule_table, sizeof rule_table, rule_strings,
                                        sizeof rule_strings, table, sizeof table, strings, sizeof strings, cells,
                                        sizeof cells, output, sizeof output, &which, &place, &steps, &length);
    return argument;
}

static void *check_texts(void *argument)
{
    struct evaluation *given = argument;
    uint64_t which = 0, place = 0, words = 0;
    given->refusal = jehvrukam_check(given->rule.text, given->rule.length, given->sheet.text, given->sheet.length,
                                     rule_table, sizeof rule_table, rule_strings, sizeof rule_strings, sheet_table,
                                     sizeof sheet_table, sheet_strings, sizeof sheet_strings, &which, &place, &words);
    return argument;
}

/* Not to fit is not expected, and told as a refusal that there is not. */
static void *fit_texts(void *argument)
{
    struct evaluation *given = argument;
    uint64_t which = 0, place = 0, fits = 0;
    given->refusal = jehvrukam_fits(given->sheet.text, given->sheet.length, given->record.text, given->record.length,
                                    sheet_table, sizeof sheet_table, sheet_strings, sizeof sheet_strings, table,
                                    sizeof table, strings, sizeof strings, &which, &place, &fits);
    if (given->refusal == JEHVRUKAM_DONE && fits != 1)
        given->refusal = UINT32_MAX;
    return argument;
}

static void *evaluate_checked_texts(void *argument)
{
    struct evaluation *given = argument;
    uint64_t which = 0, place = 0, words = 0, fits = 0, steps = 0, length = 0;
    given->refusal = jehvrukam_evaluate_checked(
        given->rule.text, given->rule.length, given->sheet.text, given->sheet.length, given->record.text,
        given->record.length, JEHVRUKAM_MAX_STEPS, rule_table, sizeof rule_table, rule_strings, sizeof rule_strings,
        sheet_table, sizeof sheet_table, sheet_strings, sizeof sheet_strings, table, sizeof table, strings,
        sizeof strings, cells, sizeof cells, output, sizeof output, &which, &place, &words, &fits, &steps, &length);
    return argument;
}

/* Writes the cell whose number is given; the number becomes the refusal. */
static void *write_cell(void *argument)
{
    uint64_t *cell = argument, size = 0;
    *cell = writer_write(strings, sizeof strings, strings, sizeof strings, table, sizeof table, cells, sizeof cells,
                         *cell, output, sizeof output, &size);
    return argument;
}

/* The bytes of a thread's stack that a function on it changed. */
static size_t used(void *(*function)(void *), void *argument)
{
    static uint8_t *stack;
    pthread_attr_t attributes;
    pthread_t thread;
    size_t untouched = 0;

    if (stack == NULL && posix_memalign((void **)&stack, 4096, STACK_BYTES) != 0)
        exit(2);
    memset(stack, PATTERN, STACK_BYTES);
    if (pthread_attr_init(&attributes) != 0 || pthread_attr_setstack(&attributes, stack, STACK_BYTES) != 0 ||
        pthread_create(&thread, &attributes, function, argument) != 0 || pthread_join(thread, NULL) != 0)
        exit(2);
    while (untouched < STACK_BYTES && stack[untouched] == PATTERN)
        untouched++;
    return STACK_BYTES - untouched;
}

static size_t repeat(char *to, const char *part, int times)
{
    size_t length = 0;
    for (int i = 0; i < times; i++, length += strlen(part))
        memcpy(to + length, part, strlen(part));
    return length;
}

/* A text of parts that open, of one inside, and of parts that close. */
static struct call nested(char *text, const char *opening, int times, const char *inside, const char *closing)
{
    size_t length = repeat(text, opening, times);
    length += repeat(text + length, inside, 1);
    length += repeat(text + length, closing, times);
    return (struct call){(const uint8_t *)text, length};
}

static struct call literal(const char *text)
{
    return (struct call){(const uint8_t *)text, strlen(text)};
}

/* Counts a call that used so many bytes of stack, the thread's own among them, and was done or not. */
static void count(const char *what, int number, size_t bytes, int done, struct use *use)
{
    bytes = bytes > own ? bytes - own : 0;
    if (!done) {
        printf("%s %d does not end as expected\n", what, number);
        failed++;
    } else if (bytes == 0 || bytes >= use->limit) {
        printf("%s %d: %zu bytes of stack\n", what, number, bytes);
        failed++;
    } else {
        passed++;
    }
    if (bytes > use->most)
        use->most = bytes;
}

static void measure_reading(void)
{
    static char text[JEHVRUKAM_MAX_TEXT_BYTES];
    const char *const openings[] = {"[", "{\"a\":", "[{\"\\ud83d\\ude00\":"};
    const char *const closings[] = {"]", "}", "}]"};
    const int times[] = {32, 32, 16};

    for (int i = 0; i < 4; i++) {
        struct call call;
        if (i < 3) {
            call = nested(text, openings[i], times[i], "\"\\u00e9\\\\\"", closings[i]);
        } else {
            size_t length = repeat(text, "[", 1);
            length += repeat(text + length, "\"a\",", 1000);
            length += repeat(text + length, "1]", 1);
            call = (struct call){(const uint8_t *)text, length};
        }
        size_t bytes = used(read_text, &call);
        count("text", i, bytes, table[0] != 0, &reading);

        struct evaluation given = {literal("{\"var\":\"\"}"), call, literal("{}"), 0};
        bytes = used(evaluate_texts, &given);
        count("the whole of text", i, bytes, given.refusal == JEHVRUKAM_DONE, &evaluating);
    }
}

/* Rules 32 deep: arrays, which nest one deep, and operations, which nest two, around each operation. In the
 * last four, one within the other is accepted too. */
static void measure_evaluating(void)
{
    static const char shift[] = "{\"plusTime\":[\"2020-01-31T10:20:30.123456789+05:30\",-20000,\"month\"]}";
    static const char birth[] = "{\"dccDateOfBirth\":[\"2020-02\"]}";
    static const char part[] = "{\"extractFromUVCI\":[\"URN:UVCI:01:NL/187/37512422923\",3]}";
    static const char member[] = "{\"in\":[\"xyz\",{\"var\":\"a.1\"}]}";
    static const char dates[] = "{\"before\":[{\"plusTime\":[\"2020\",1,\"month\"]},{\"dccDateOfBirth\":[\"2021-04\"]},"
                                "{\"plusTime\":[\"2021-05-28T23:59:59-1\",-1,\"hour\"]}]}";
    static const char path[] = "{\"var\":\"a.1.0\"}", sum[] = "{\"+\":[1,{\"+\":[2,3]}]}";
    static const struct {
        const char *opening;
        int times;
        const char *inside, *closing;
        uint32_t refusal, checked; /* without the sheet and with it */
    } rules[] = {
        {"[", 32, "", "]", 0, 0},
        {"[", 31, path, "]", 0, 0},
        {"[", 30, shift, "]", 0, 0},
        {"[", 30, birth, "]", 0, 0},
        {"[", 30, part, "]", 0, 0},
        {"[", 30, "{\">=\":[3,2,1]}", "]", 0, 0},
        {"[", 29, member, "]", 0, 0},
        {"[", 28, dates, "]", 0, 0},
        {"{\"!\":[", 16, "1", "]}", 0, 0},
        {"{\"+\":[1,", 16, "1", "]}", 0, 0},
        {"{\"===\":[1,", 16, "1", "]}", 0, 0},
        {"{\"if\":[", 15, part, ",2,3]}", 0, 0},
        {"{\"if\":[1,", 15, shift, ",3]}", 0, 0},
        {"{\"if\":[0,2,", 15, shift, "]}", 0, 0},
        {"{\"if\":[0,2,", 14, dates, "]}", 0, 0},
        {"{\"and\":[1,1,", 15, part, "]}", 0, 0},
        {"{\"and\":[", 15, part, ",1]}", 0, 0},
        {"{\"reduce\":[", 15, "[1,2]", ",[{\"var\":\"current\"}],[]]}", 0, 0},
        {"{\"reduce\":[[1],", 15, shift, ",0]}", 0, JEHVRUKAM_NOT_ACCEPTED},
        {"{\"reduce\":[[1],", 14, dates, ",0]}", 0, JEHVRUKAM_NOT_ACCEPTED},
        {"{\"reduce\":[[1],{\"var\":\"accumulator\"},", 15, part, "]}", 0, 0},
        {"[{\"reduce\":[[1],", 10, shift, ",0]}]", 0, JEHVRUKAM_NOT_ACCEPTED},
        {"{\"reduce\":[", 16, "1", ",2,3]}", JEHVRUKAM_WRONG_KIND, JEHVRUKAM_NOT_ACCEPTED},
        {"{\"reduce\":[[1],", 15, shift, ",{\"dccDateOfBirth\":[\"2020\"]}]}", 0, 0},
        {"{\"reduce\":[", 15, "[1,2]", ",{\"var\":\"accumulator\"},[{\"var\":\"b\"}]]}", 0, 0},
        {"{\"reduce\":[[1],{\"+\":[{\"var\":\"current\"},{\"var\":\"accumulator\"}]},", 14, sum, "]}", 0, 0},
        {"{\"reduce\":[[1],{\"if\":[{\"var\":\"current\"},{\"var\":\"accumulator\"},", 7, sum, "]},2]}", 0, 0},
    };
    static char text[JEHVRUKAM_MAX_TEXT_BYTES];
    static const char record[] = "{\"a\":[0,[\"abc\",\"xyz\"]]}";

    for (size_t i = 0; i < sizeof rules / sizeof *rules; i++) {
        struct evaluation given = {nested(text, rules[i].opening, rules[i].times, rules[i].inside, rules[i].closing),
                                   literal(record), literal("{\"a.1\":[\"strings\"]}"), 0};
        size_t bytes = used(evaluate_texts, &given);
        count("rule", (int)i, bytes, given.refusal == rules[i].refusal, &evaluating);
        bytes = used(check_texts, &given);
        count("check of rule", (int)i, bytes, given.refusal == rules[i].checked, &checking);
        bytes = used(evaluate_checked_texts, &given);
        count("check and run of rule", (int)i, bytes, given.refusal == rules[i].checked, &evaluating_checked);
    }
}

/* Records 32 deep with something of a word inside, and a sheet of 256 members. */
static void measure_fitting(void)
{
    static const struct {
        const char *opening, *fragment;
        int times;
        const char *inside, *closing, *word;
    } records[] = {
        {"[", "0", 32, "1,-2", "]", "integers"},
        {"[", "0", 32, "\"a\",\"\"", "]", "strings"},
        {"[", "0", 32, "1,\"a\"", "]", "array"},
        {"[", "0", 31, "{}", "]", "object"},
        {"[", "0", 31, "\"2020-01-31T10:20:30.123456789+05:30\"", "]", "date"},
        {"{\"a\":", "a", 31, "\"2020-02\"", "}", "day"},
        {"{\"a\":", "a", 31, "[1,2]", "}", "integers"},
    };
    static char text[JEHVRUKAM_MAX_TEXT_BYTES], sheet[JEHVRUKAM_MAX_TEXT_BYTES];
    for (size_t i = 0; i < sizeof records / sizeof *records; i++) {
        size_t length = (size_t)sprintf(sheet, "{\"");
        for (int level = 0; level < 31; level++)
            length += (size_t)sprintf(sheet + length, "%s%s", level > 0 ? "." : "", records[i].fragment);
        sprintf(sheet + length, "\":[\"null\",\"%s\"]}", records[i].word);
        struct call record =
            nested(text, records[i].opening, records[i].times, records[i].inside, records[i].closing);
        struct evaluation given = {literal("1"), record, literal(sheet), 0};
        size_t bytes = used(fit_texts, &given);
        count("record", (int)i, bytes, given.refusal == JEHVRUKAM_DONE, &fitting);
    }
    size_t length = (size_t)sprintf(sheet, "{");
    for (int i = 0; i < 256; i++)
        length += (size_t)sprintf(sheet + length, "%s\"a.%d\":[\"null\",\"day\"]", i > 0 ? "," : "", i);
    sprintf(sheet + length, "}");
    struct evaluation given = {literal("{\"var\":\"a.255\"}"), literal("{\"a\":[\"2020\"]}"), literal(sheet), 0};
    size_t bytes = used(fit_texts, &given);
    count("sheet of 256 members", 0, bytes, given.refusal == JEHVRUKAM_DONE, &fitting);
    bytes = used(check_texts, &given);
    count("sheet of 256 members", 1, bytes, given.refusal == JEHVRUKAM_DONE, &checking);
}

/* A cell of a tag and two numbers. */
static void put_cell(size_t number, uint8_t tag, size_t low, size_t high)
{
    for (int i = 0; i < 4; i++)
        cells[8 * number + i] = (uint8_t)(low >> 8 * i);
    for (int i = 0; i < 3; i++)
        cells[8 * number + 4 + i] = (uint8_t)(high >> 8 * i);
    cells[8 * number + 7] = tag;
}

/* Reads a text of objects or arrays 32 deep, and writes what was read. */
static void measure_writing_rows(int number, const char *opening, const char *inside, const char *closing)
{
    static char text[JEHVRUKAM_MAX_TEXT_BYTES];
    struct call call = nested(text, opening, 32, inside, closing);
    read_text(&call);
    put_cell(0, *opening == '[' ? 7 : 8, 1, 1);
    uint64_t cell = 0;
    size_t bytes = used(write_cell, &cell);
    count("rows", number, bytes, cell == 0, &writing);
}

/* Lists (tag 9, of one item) or contexts (tag 10, of two) 32 deep around a cell. */
static void measure_writing_cells(int number, uint8_t tag, uint8_t inside, size_t low, size_t high)
{
    size_t items = tag == 9 ? 1 : 2;
    memset(cells, 0, sizeof cells);
    put_cell(0, inside, low, high);
    for (size_t level = 1; level <= 32; level++)
        put_cell(items * level, tag, items * (level - 1), items);
    uint64_t cell = items * 32;
    size_t bytes = used(write_cell, &cell);
    count("cells", number, bytes, cell == 0, &writing);
}

/* What a call of the viewer is asked, and its answer. */
struct question {
    enum { NO_ENTRY, VIEW, PART, INTEGER, STRING, NAME } entry;
    uint64_t place, nth;
    uint32_t refusal;
};

/* Asks the viewer far below the begin of the stack: a call uses less than the end of a thread does. */
static void *ask_below(void *argument)
{
    struct question *asked = argument;
    uint8_t above[64 * 1024];
    volatile uint8_t *lowest = above;
    uint64_t first = 0, second = 0;
    int64_t value = 0;
    *lowest = 0;
    switch (asked->entry) {
    case NO_ENTRY: break;
    case VIEW: asked->refusal = jehvrukam_view(table, sizeof table, asked->place, &first, &second); break;
    case PART: asked->refusal = jehvrukam_view_part(table, sizeof table, asked->place, asked->nth, &first); break;
    case INTEGER: asked->refusal = jehvrukam_view_integer(table, sizeof table, asked->place, &value); break;
    case STRING: asked->refusal = jehvrukam_view_string(table, sizeof table, asked->place, &first, &second); break;
    case NAME: asked->refusal = jehvrukam_view_name(table, sizeof table, asked->place, &first, &second); break;
    }
    return argument;
}

/* The five entries on values of each kind, on the last of many items, and on what is not there. */
static void measure_viewing(void)
{
    static char text[JEHVRUKAM_MAX_TEXT_BYTES];
    static const struct question asked[] = {
        {VIEW, 0, 0, 0},     {VIEW, 1, 0, 0},       {VIEW, 2, 0, 0},          {VIEW, 3, 0, 0},
        {VIEW, 1023, 0, 0},  {VIEW, 1024, 0, 1},    {PART, 0, 0, 0},          {PART, 0, 1021, 0},
        {PART, 0, 1022, 1},  {PART, 1, 0, 0},       {PART, 2, 0, 1},          {PART, UINT64_MAX, 0, 1},
        {STRING, 3, 0, 0},   {STRING, 0, 0, 1},     {INTEGER, 1023, 0, 0},    {INTEGER, 1024, 0, 1},
        {NAME, 2, 0, 0},     {NAME, 1024, 0, 1},
    };
    size_t length = repeat(text, "[{\"a\":null},\"b\"", 1);
    length += repeat(text + length, ",1", 1020);
    length += repeat(text + length, "]", 1);
    struct call call = {(const uint8_t *)text, length};
    read_text(&call);
    struct question none = {NO_ENTRY, 0, 0, 0};
    own = used(ask_below, &none);
    for (size_t i = 0; i < sizeof asked / sizeof *asked; i++) {
        struct question question = asked[i];
        question.refusal = UINT32_MAX;
        size_t bytes = used(ask_below, &question);
        count("question", (int)i, bytes, question.refusal == asked[i].refusal, &viewing);
    }
}

int main(void)
{
    own = used(nothing, NULL);
    measure_reading();
    measure_evaluating();
    measure_fitting();
    measure_writing_rows(0, "[", "-9007199254740991", "]");
    measure_writing_rows(1, "{\"\\u0001\":", "\"\\u0001\\n\\u00e9\"", "}");
    measure_writing_cells(0, 9, 3, 0xffffffff, 0xffffff); /* an integer of 17 digits */
    measure_writing_cells(1, 10, 4, 999, 73000);          /* an instant */
    measure_writing_cells(2, 10, 5, 0, 2500);             /* most of them zero bytes */
    measure_viewing();
    printf("the most stack that a call used: %zu bytes to read, %zu to evaluate, %zu to write,\n"
           "%zu to check, %zu to tell whether a record fits, %zu to check and evaluate, %zu to view\n", reading.most,
           evaluating.most, writing.most, checking.most, fitting.most, evaluating_checked.most, viewing.most);
    printf("%d passed, %d failed\n", passed, failed);
    return failed == 0 ? 0 : 1;
}
