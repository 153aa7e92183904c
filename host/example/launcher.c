/*
 * Admits processes by a site's rule, as a launcher would that builds on Jehvrukam:
 *
 *     launcher RULE RECORD..
 *
 * RULE is the file of the rule; each RECORD is the file of one process that asks to be let in. It is admitted exactly
 * if the rule's answer on its record is true: no refusal and no other answer lets it in. Prints a line for each
 * process. The exit status is 0 if all were admitted, 1 if one was not, 2 if there is no rule to go by.
 */
#include "texts.h"

#include <string.h>

/* Judges a process by its record, and says how; 1 if it is admitted. */
static int admit(const struct text *rule, const struct text *record)
{
    static uint8_t rule_table[JEHVRUKAM_TABLE_BYTES], rule_strings[JEHVRUKAM_STRINGS_BYTES];
    static uint8_t record_table[JEHVRUKAM_TABLE_BYTES], record_strings[JEHVRUKAM_STRINGS_BYTES];
    static uint8_t cells[JEHVRUKAM_CELLS_BYTES], output[JEHVRUKAM_MAX_TEXT_BYTES];
    uint64_t which = 0, place = 0, steps = 0, length = 0;

    uint32_t refusal = jehvrukam_evaluate(rule->bytes, rule->length, record->bytes, record->length, JEHVRUKAM_MAX_STEPS,
                                          rule_table, sizeof rule_table, rule_strings, sizeof rule_strings,
                                          record_table, sizeof record_table, record_strings, sizeof record_strings,
                                          cells, sizeof cells, output, sizeof output,
                                          &which, &place, &steps, &length);
    if (refusal != JEHVRUKAM_DONE) {
        print_refusal(refusal, which, place);
        return 0;
    }
    if (length != 4 || memcmp(output, "true", 4) != 0) {
        printf("not admitted: the answer is %.*s\n", (int)length, (const char *)output);
        return 0;
    }
    puts("admitted");
    return 1;
}

int main(int argc, char **argv)
{
    static struct text rule, record;
    int all = 1;

    if (argc < 3) {
        fprintf(stderr, "usage: %s RULE RECORD..\n", argc > 0 ? argv[0] : "launcher");
        return 2;
    }
    if (!get(argv[1], &rule))
        return 2;
    for (int i = 2; i < argc; i++) {
        printf("%s: ", argv[i]);
        fflush(stdout);
        if (get(argv[i], &record)) {
            all &= admit(&rule, &record);
        } else {
            puts("not admitted: there is no record");
            all = 0;
        }
    }
    return all ? 0 : 1;
}
