/*
 * What the tests of the entries that judge share: a call on texts, areas and numbers, each between what nothing may
 * touch, and what it is to leave behind. To be included first.
 */
#ifndef CALLS_H
#define CALLS_H

#include "areas.h"
#include "jehvrukam.h"

#include <inttypes.h>

#define NO_NUMBER UINT64_C(0x0123456789abcdef)
#define MOST_TEXTS 3
#define MOST_AREAS 8
#define MOST_NUMBERS 6

/* An entry. Each text has a table and a strings area; then come the cells and the output of one that evaluates. The
 * first two numbers are which and place; of one that evaluates the last is the length. */
struct call;
struct entry {
    int texts, areas, numbers; /* how many it takes */
    uint32_t (*run)(struct call *call, uint64_t limit);
};

enum { WHICH, PLACE };

/* ---- what is given to a call, and what comes back */

struct text {
    const void *bytes;
    size_t length;
};

struct given {
    const struct entry *entry;
    struct text texts[MOST_TEXTS];
    uint64_t limit;
    size_t lengths[MOST_AREAS];
};

struct answer {
    uint32_t refusal;
    uint64_t numbers[MOST_NUMBERS];
    const void *text;
};

static inline int evaluates(const struct entry *entry)
{
    return entry->areas > 2 * entry->texts;
}

/* The area that is the output, or one past the last. */
static inline int output_of(const struct entry *entry)
{
    return evaluates(entry) ? entry->areas - 1 : entry->areas;
}

/* The size that the header states for a work area. An output of any length is permitted. */
static inline size_t stated_of(const struct entry *entry, int area)
{
    return area >= 2 * entry->texts ? JEHVRUKAM_CELLS_BYTES
           : area % 2 == 0          ? JEHVRUKAM_TABLE_BYTES
                                    : JEHVRUKAM_STRINGS_BYTES;
}

static inline struct text text_of(const char *text)
{
    return (struct text){text, strlen(text)};
}

/* These texts with areas as stated, an output for any answer, and the largest limit. */
static inline struct given given_to(const struct entry *entry, struct text one, struct text two, struct text three)
{
    struct given given = {entry, {one, two, three}, JEHVRUKAM_MAX_STEPS, {0}};
    for (int i = 0; i < entry->areas; i++)
        given.lengths[i] = i == output_of(entry) ? JEHVRUKAM_MAX_TEXT_BYTES : stated_of(entry, i);
    return given;
}

/* ---- one call */

struct call {
    const struct entry *entry;
    struct area texts[MOST_TEXTS], areas[MOST_AREAS];
    uint64_t numbers[2 * MOST_NUMBERS + 1]; /* every second one is lent */
    uint32_t refusal;
};

/* Where a number is lent. */
static inline uint64_t *number_at(struct call *call, int number)
{
    return &call->numbers[2 * number + 1];
}

static inline struct call lend(const struct given *given, long offset)
{
    struct call call;
    call.entry = given->entry;
    for (int i = 0; i < call.entry->texts; i++) {
        call.texts[i] = area_at(given->texts[i].length, offset);
        if (given->texts[i].length > 0)
            memcpy(call.texts[i].bytes, given->texts[i].bytes, given->texts[i].length);
    }
    for (int i = 0; i < call.entry->areas; i++)
        call.areas[i] = area_at(given->lengths[i], offset);
    for (size_t i = 0; i < sizeof call.numbers / sizeof *call.numbers; i++)
        call.numbers[i] = NO_NUMBER;
    call.refusal = UINT32_MAX;
    return call;
}

static inline void run(struct call *call, uint64_t limit)
{
    call->refusal = call->entry->run(call, limit);
}

/* Checks that nothing but what was lent has been touched, and ends the call. */
static inline void end(struct call *call, const struct given *given, int line)
{
    for (int i = 0; i < call->entry->texts; i++) {
        struct area *text = &call->texts[i];
        check(guards_kept(text), line, "a text's guards kept");
        check(text->length == 0 || memcmp(text->bytes, given->texts[i].bytes, text->length) == 0, line, "text kept");
        release(text);
    }
    for (int i = 0; i < call->entry->areas; i++) {
        check(guards_kept(&call->areas[i]), line, "an area's guards kept");
        release(&call->areas[i]);
    }
    for (size_t i = 0; i < sizeof call->numbers / sizeof *call->numbers; i += 2)
        check(call->numbers[i] == NO_NUMBER, line, "nothing beside the numbers touched");
}

/* Whether a table and a strings area hold what jehvrukam_read leaves of a text. */
static inline int is_read(const struct area *table, const struct area *strings, const struct area *text)
{
    uint64_t place = NO_NUMBER;
    uint8_t *read_table = malloc(table->length), *read_strings = malloc(strings->length);
    if (read_table == NULL || read_strings == NULL)
        exit(2);
    int same = jehvrukam_read(text->bytes, text->length, read_table, table->length, read_strings, strings->length,
                              &place) == JEHVRUKAM_DONE &&
               memcmp(table->bytes, read_table, table->length) == 0 &&
               memcmp(strings->bytes, read_strings, strings->length) == 0;
    free(read_table);
    free(read_strings);
    return same;
}

static inline void print_numbers(const char *what, uint32_t refusal, const uint64_t *numbers, int count, int step)
{
    printf("  %s %" PRIu32, what, refusal);
    for (int i = 0; i < count; i++)
        printf(", %" PRIu64, numbers[step * i]);
    puts("");
}

/* Checks what an evaluation that was done left in cells and output. */
static inline void check_answer(const struct call *call, const struct answer *expected, int line)
{
    const struct area *cells = &call->areas[2 * call->entry->texts], *output = cells + 1;
    size_t length = (size_t)expected->numbers[call->entry->numbers - 1];
    check(all_are(cells->bytes, cells->length, 0), line, "cells zero");
    if (!check(length <= output->length && memcmp(output->bytes, expected->text, length) == 0, line, "the text")) {
        printf("  given %.*s\n", (int)(output->length < 200 ? output->length : 200), (const char *)output->bytes);
        return;
    }
    check(all_are(output->bytes + length, output->length - length, 0), line, "zeros behind the text");
}

/* Checks all that a call left behind. */
static inline void check_call(struct call *call, const struct answer *expected, int line)
{
    const struct entry *entry = call->entry;
    const struct area *areas = call->areas;
    uint32_t refusal = expected->refusal;
    if (refusal == JEHVRUKAM_BAD_ARGUMENT) {
        check(call->refusal == refusal, line, "refused with 1");
        for (size_t i = 0; i < sizeof call->numbers / sizeof *call->numbers; i++)
            check(call->numbers[i] == NO_NUMBER, line, "numbers untouched");
        for (int i = 0; i < entry->areas; i++)
            check(all_are(areas[i].bytes, areas[i].length, NOISE), line, "areas untouched");
        return;
    }
    int same = call->refusal == refusal;
    for (int i = 0; i < entry->numbers; i++)
        same = same && *number_at(call, i) == expected->numbers[i];
    if (!check(same, line, "answered so")) {
        print_numbers("given", call->refusal, number_at(call, 0), entry->numbers, 2);
        print_numbers("expected", refusal, expected->numbers, entry->numbers, 1);
    }
    if (refusal != JEHVRUKAM_DONE) {
        for (int i = 0; i < entry->areas; i++)
            check(all_are(areas[i].bytes, areas[i].length, 0), line, "areas zero");
        return;
    }
    for (int i = 0; i < entry->texts; i++)
        check(is_read(&areas[2 * i], &areas[2 * i + 1], &call->texts[i]), line, "a text's read form");
    if (evaluates(entry))
        check_answer(call, expected, line);
}

/* This comes back, wherever the texts and areas begin. Counts no test. */
static inline void expect_call(const struct given *given, struct answer expected, int line)
{
    for (long offset = -1; offset <= 1; offset++) {
        struct call call = lend(given, offset);
        run(&call, given->limit);
        check_call(&call, &expected, line);
        end(&call, given, line);
    }
}

/* The same as a test, with work areas of each length that matters. */
static inline void expect_sizes(const struct given *given, struct answer expected, int line)
{
    const struct answer refused = {JEHVRUKAM_BAD_ARGUMENT, {0}, ""};
    for (int area = 0; area < output_of(given->entry); area++) {
        size_t stated = stated_of(given->entry, area);
        const size_t lengths[] = {0, 1, stated / 2, stated - 1, stated, stated + 1, 2 * stated + 3};
        for (size_t n = 0; n < sizeof lengths / sizeof *lengths; n++) {
            struct given sized = *given;
            sized.lengths[area] = lengths[n];
            expect_call(&sized, lengths[n] < stated ? refused : expected, line);
            counted();
        }
    }
}

/* What an area begins with; zeros follow. */
struct front {
    const void *bytes;
    size_t length;
};

/* The bytes of all areas after success, written out, as tests: wherever the areas begin, and however long they are. */
static inline void expect_fronts(struct given given, struct answer expected, const struct front *fronts, int line)
{
    for (long offset = -1; offset < 33; offset++) {
        for (int i = 0; i < given.entry->areas && offset >= 0; i++)
            given.lengths[i] += (size_t)(7 + 2 * i);
        struct call call = lend(&given, offset);
        run(&call, given.limit);
        check(call.refusal == JEHVRUKAM_DONE, line, "done");
        for (int i = 0; i < given.entry->numbers; i++)
            check(*number_at(&call, i) == expected.numbers[i], line, "the numbers");
        for (int i = 0; i < given.entry->areas; i++) {
            const struct area *area = &call.areas[i];
            size_t front = fronts[i].length;
            check(memcmp(area->bytes, fronts[i].bytes, front) == 0, line, "the bytes in front");
            check(all_are(area->bytes + front, area->length - front, 0), line, "zeros behind them");
        }
        end(&call, &given, line);
        counted();
    }
}

/* Each begin of each text, the others whole, as tests: judged alike with untouchable pages before and behind it. It is
 * refused with 2 unless it is whole. */
static inline void expect_parts(const struct given *given, int line)
{
    for (int text = 0; text < given->entry->texts; text++)
        for (size_t n = 0; n <= given->texts[text].length; n++) {
            struct given part = *given;
            part.texts[text].length = n;
            struct call first = lend(&part, 0), last = lend(&part, -1);
            run(&first, part.limit);
            run(&last, part.limit);
            check(first.refusal == (n == given->texts[text].length ? 0u : 2u), line, "refused unless whole");
            check(first.refusal == last.refusal, line, "refused alike");
            check(memcmp(first.numbers, last.numbers, sizeof first.numbers) == 0, line, "the same numbers");
            for (int i = 0; i < part.entry->areas; i++)
                check(memcmp(first.areas[i].bytes, last.areas[i].bytes, part.lengths[i]) == 0, line, "the same bytes");
            end(&first, &part, line);
            end(&last, &part, line);
            counted();
        }
}

/* ---- areas that nothing has written */

static inline void *unset(size_t length)
{
    void *bytes = malloc(length > 0 ? length : 1);
    if (bytes == NULL)
        exit(2);
    return bytes;
}

/* Everything straight from malloc, as a test: under valgrind nothing may depend on what it held, and after the call
 * every byte is set, for each is looked at. */
static inline void expect_unset(const struct given *given, struct answer expected, int line)
{
    const struct entry *entry = given->entry;
    struct call *call = unset(sizeof *call);
    call->entry = entry;
    for (int i = 0; i < entry->texts; i++) {
        struct text text = given->texts[i];
        call->texts[i] = (struct area){NULL, 0, unset(text.length), text.length};
        memcpy(call->texts[i].bytes, text.bytes, text.length);
    }
    for (int i = 0; i < entry->areas; i++)
        call->areas[i] = (struct area){NULL, 0, unset(given->lengths[i]), given->lengths[i]};
    run(call, given->limit);
    check_call(call, &expected, line);
    for (int i = 0; i < entry->texts; i++)
        free(call->texts[i].bytes);
    for (int i = 0; i < entry->areas; i++)
        free(call->areas[i].bytes);
    free(call);
    counted();
}

#endif
