/* What the examples share: a file's text, and refusals in words. */
#ifndef TEXTS_H
#define TEXTS_H

#include "jehvrukam.h"

#include <inttypes.h>
#include <stdio.h>

/* One byte more than a text may have: a longer file is refused for its length whatever follows. */
struct text {
    uint8_t bytes[JEHVRUKAM_MAX_TEXT_BYTES + 1];
    size_t length;
};

/* Gets a file's text; 0 if it cannot be read. */
static inline int get(const char *path, struct text *text)
{
    FILE *file = fopen(path, "rb");
    if (file == NULL) {
        perror(path);
        return 0;
    }
    text->length = fread(text->bytes, 1, sizeof text->bytes, file);
    int done = !ferror(file);
    if (!done)
        perror(path);
    fclose(file);
    return done;
}

static inline const char *explanation(uint32_t refusal)
{
    switch (refusal) {
    case JEHVRUKAM_BAD_ARGUMENT: return "a work area is below its stated size, or the step limit above 1,000";
    case JEHVRUKAM_NOT_JSON: return "not an RFC 8259 text in UTF-8, from here on";
    case JEHVRUKAM_NAME_OR_SURROGATE: return "a name twice in one object, or a lone surrogate escape";
    case JEHVRUKAM_BAD_NUMBER: return "a fraction or exponent, or an integer beyond 9007199254740991 either way";
    case JEHVRUKAM_TOO_LARGE: return "text over 16,384 bytes, nested more than 32 deep, or more than 1,024 values";
    case JEHVRUKAM_NOT_RULE: return "the rule's text is JSON, but is not a rule";
    case JEHVRUKAM_WRONG_KIND: return "an operand has a wrong kind";
    case JEHVRUKAM_BAD_DATE: return "a string is no date text of the wanted forms";
    case JEHVRUKAM_OUT_OF_RANGE: return "a sum beyond 9007199254740991 either way, or an instant outside its range";
    case JEHVRUKAM_OUT_OF_STEPS: return "more than 1,000 steps would be needed";
    case JEHVRUKAM_ANSWER_TOO_LARGE: return "the answer nests too deep, has too many values, or its text is too long";
    case JEHVRUKAM_OUTPUT_TOO_SHORT: return "the answer's text is longer than the output";
    case JEHVRUKAM_NOT_ACCEPTED: return "an operand might have a wrong kind on a record that fits the sheet";
    case JEHVRUKAM_NOT_SHEET: return "the sheet's text is JSON, but is not a sheet";
    default: return "no such refusal";
    }
}

/* Prints a refusal; if it is about one of several texts, which and where. */
static inline void print_refusal(uint32_t refusal, uint64_t which, uint64_t place)
{
    printf("refused %" PRIu32, refusal);
    if (which != 0)
        printf(" at place %" PRIu64 " of the %s", place,
               which == JEHVRUKAM_RULE ? "rule" : which == JEHVRUKAM_SHEET ? "sheet" : "record");
    printf(": %s\n", explanation(refusal));
}

#endif
