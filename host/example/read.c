/*
 * Reads a JSON text and prints what Jehvrukam answers: the value, walked by the viewer, or the refusal with its place.
 *
 *     read FILE
 *
 * The exit status is 0 if the text was read, 1 if it was refused, 2 if there is no such file.
 */
#include "texts.h"

#include <stdlib.h>

static uint8_t table[JEHVRUKAM_TABLE_BYTES];
static uint8_t strings[JEHVRUKAM_STRINGS_BYTES];

/* Ends the program if the viewer refuses. It never does here: the table is one that was read, and is asked for nothing
 * that it does not hold. */
static void demand(uint32_t refusal)
{
    if (refusal != JEHVRUKAM_DONE)
        abort();
}

static void print_quoted(uint64_t start, uint64_t length)
{
    putchar('"');
    for (uint64_t i = start; i < start + length; i++) {
        if (strings[i] == '"' || strings[i] == '\\')
            printf("\\%c", strings[i]);
        else if (strings[i] < 0x20 || strings[i] == 0x7f)
            printf("\\u%04x", (unsigned)strings[i]);
        else
            putchar(strings[i]);
    }
    putchar('"');
}

static void print_name(uint64_t place)
{
    uint64_t start, length;
    demand(jehvrukam_view_name(table, sizeof table, place, &start, &length));
    print_quoted(start, length);
    printf(": ");
}

static void print_integer(uint64_t place)
{
    int64_t value;
    demand(jehvrukam_view_integer(table, sizeof table, place, &value));
    printf("integer %" PRId64 "\n", value);
}

static void print_string(uint64_t place)
{
    uint64_t start, length;
    demand(jehvrukam_view_string(table, sizeof table, place, &start, &length));
    printf("string ");
    print_quoted(start, length);
    putchar('\n');
}

/* Prints the value at a place, a line for each value. Goes as deep as the text nests, at most 32. */
static void print_value(uint64_t place, int is_member, int depth)
{
    uint64_t kind, count, part;
    printf("%*s", 2 * depth, "");
    if (is_member)
        print_name(place);
    demand(jehvrukam_view(table, sizeof table, place, &kind, &count));
    switch (kind) {
    case JEHVRUKAM_NULL: puts("null"); break;
    case JEHVRUKAM_FALSE: puts("false"); break;
    case JEHVRUKAM_TRUE: puts("true"); break;
    case JEHVRUKAM_INTEGER: print_integer(place); break;
    case JEHVRUKAM_STRING: print_string(place); break;
    case JEHVRUKAM_ARRAY: printf("array of %" PRIu64 "\n", count); break;
    case JEHVRUKAM_OBJECT: printf("object of %" PRIu64 "\n", count); break;
    }
    for (uint64_t nth = 0; nth < count; nth++) {
        demand(jehvrukam_view_part(table, sizeof table, place, nth, &part));
        print_value(part, kind == JEHVRUKAM_OBJECT, depth + 1);
    }
}

int main(int argc, char **argv)
{
    static struct text text;

    if (argc != 2) {
        fprintf(stderr, "usage: %s FILE\n", argc > 0 ? argv[0] : "read");
        return 2;
    }
    if (!get(argv[1], &text))
        return 2;

    uint64_t place = 0;
    uint32_t refusal = jehvrukam_read(text.bytes, text.length, table, sizeof table, strings, sizeof strings, &place);
    if (refusal != JEHVRUKAM_DONE) {
        printf("refused %" PRIu32 " at place %" PRIu64 ": %s\n", refusal, place, explanation(refusal));
        return 1;
    }
    print_value(0, 0, 0);
    return 0;
}
