/*
 * Tells whether a site may change its rule, as a portal would that builds on Jehvrukam:
 *
 *     checker RULE SHEET [RECORD..]
 *
 * RULE is the file of the new rule, SHEET that of what the site's records have, each RECORD that of one on which the
 * rule is tried. The rule is good for the site if the kind check accepts it and finds the word boolean alone: then no
 * record that fits can meet a wrong kind, and every answer is true or false. Prints what was found, then a line for
 * each record: whether it fits, and what the rule answers there. The exit status is 0 if the rule is good, 1 if it is
 * not, 2 if there is no rule or no sheet; the records do not change it.
 */
#include "texts.h"

static uint8_t rule_table[JEHVRUKAM_TABLE_BYTES], rule_strings[JEHVRUKAM_STRINGS_BYTES];
static uint8_t sheet_table[JEHVRUKAM_TABLE_BYTES], sheet_strings[JEHVRUKAM_STRINGS_BYTES];
static uint8_t record_table[JEHVRUKAM_TABLE_BYTES], record_strings[JEHVRUKAM_STRINGS_BYTES];
static uint8_t cells[JEHVRUKAM_CELLS_BYTES], output[JEHVRUKAM_MAX_TEXT_BYTES];

static void print_words(uint64_t words)
{
    static const char *const spelled[] = {"null",     "boolean", "integer", "string", "date",   "day",
                                          "integers", "strings", "array",   "object", "instant"};
    for (size_t i = 0; i < sizeof spelled / sizeof *spelled; i++)
        if (words >> i & 1)
            printf(" %s", spelled[i]);
    puts("");
}

/* Checks the rule, and says how; 1 if it is good. */
static int check(const struct text *rule, const struct text *sheet)
{
    uint64_t which = 0, place = 0, words = 0;
    uint32_t refusal = jehvrukam_check(rule->bytes, rule->length, sheet->bytes, sheet->length,
                                       rule_table, sizeof rule_table, rule_strings, sizeof rule_strings,
                                       sheet_table, sizeof sheet_table, sheet_strings, sizeof sheet_strings,
                                       &which, &place, &words);
    if (refusal != JEHVRUKAM_DONE) {
        print_refusal(refusal, which, place);
        return 0;
    }
    printf("accepted; words:");
    print_words(words);
    if (words != JEHVRUKAM_WORD_BOOLEAN)
        puts("not good for admission: the answer may be something else than true or false");
    return words == JEHVRUKAM_WORD_BOOLEAN;
}

/* Says whether a record fits, and what the rule, which was accepted, answers there. */
static void try_record(const struct text *rule, const struct text *sheet, const struct text *record)
{
    uint64_t which = 0, place = 0, words = 0, fits = 0, steps = 0, length = 0;
    uint32_t refusal = jehvrukam_evaluate_checked(
        rule->bytes, rule->length, sheet->bytes, sheet->length, record->bytes, record->length, JEHVRUKAM_MAX_STEPS,
        rule_table, sizeof rule_table, rule_strings, sizeof rule_strings, sheet_table, sizeof sheet_table,
        sheet_strings, sizeof sheet_strings, record_table, sizeof record_table, record_strings, sizeof record_strings,
        cells, sizeof cells, output, sizeof output, &which, &place, &words, &fits, &steps, &length);
    if (words != 0) /* evaluation has begun */
        printf("fits %s, ", fits == 1 ? "yes" : "no");
    if (refusal != JEHVRUKAM_DONE)
        print_refusal(refusal, which, place);
    else
        printf("answer %.*s\n", (int)length, (const char *)output);
}

/* Says whether a record fits; there is no rule to try. */
static void fit_record(const struct text *sheet, const struct text *record)
{
    uint64_t which = 0, place = 0, fits = 0;
    uint32_t refusal = jehvrukam_fits(sheet->bytes, sheet->length, record->bytes, record->length,
                                      sheet_table, sizeof sheet_table, sheet_strings, sizeof sheet_strings,
                                      record_table, sizeof record_table, record_strings, sizeof record_strings,
                                      &which, &place, &fits);
    if (refusal != JEHVRUKAM_DONE)
        print_refusal(refusal, which, place);
    else
        printf("fits %s\n", fits == 1 ? "yes" : "no");
}

int main(int argc, char **argv)
{
    static struct text rule, sheet, record;

    if (argc < 3) {
        fprintf(stderr, "usage: %s RULE SHEET [RECORD..]\n", argc > 0 ? argv[0] : "checker");
        return 2;
    }
    if (!get(argv[1], &rule) || !get(argv[2], &sheet))
        return 2;
    printf("%s: ", argv[1]);
    int good = check(&rule, &sheet);
    for (int i = 3; i < argc; i++) {
        printf("%s: ", argv[i]);
        fflush(stdout);
        if (!get(argv[i], &record))
            puts("there is no record");
        else if (good)
            try_record(&rule, &sheet, &record);
        else
            fit_record(&sheet, &record);
    }
    return good ? 0 : 1;
}
