/*
 * Jehvrukam: the C interface.
 *
 * Only numbers and byte areas cross it. The library allocates nothing and keeps nothing between calls, so calls on
 * different areas may run at the same time. A call uses less than 16 KiB of stack to read and less than 32 KiB to check,
 * to tell whether a record fits, and to evaluate (some 13, 28, 13 and 29 KB at the deepest nesting, measured:
 * host/tests/stack.c); a call of the viewer uses less than 1 KiB (some 100 bytes, measured there too). Link
 * target/staticlib/libjehvrukam.a, which `host/build jehvrukam` writes, for x86-64.
 */
#ifndef JEHVRUKAM_H
#define JEHVRUKAM_H

#include <stddef.h>
#include <stdint.h>

#ifdef __cplusplus
extern "C" {
#endif

/* Limits of a text. */
#define JEHVRUKAM_MAX_TEXT_BYTES 16384
#define JEHVRUKAM_MAX_VALUES 1024
#define JEHVRUKAM_MAX_NESTING 32
#define JEHVRUKAM_MAX_INTEGER INT64_C(9007199254740991) /* either way */

/* The largest step limit. */
#define JEHVRUKAM_MAX_STEPS 1000

/* Work room for one text: the least lengths of its two areas. */
#define JEHVRUKAM_TABLE_BYTES 24576   /* 24 for each value: its row, and 8 that are zero again after a call */
#define JEHVRUKAM_STRINGS_BYTES 16384

/* Work room for an evaluation: the least length of its cells. */
#define JEHVRUKAM_CELLS_BYTES 32768   /* 8 for each of 4,096 values */

#define JEHVRUKAM_ROW_BYTES 16

/* Refusals. What an entry answers. */
enum {
    JEHVRUKAM_DONE = 0,
    JEHVRUKAM_BAD_ARGUMENT = 1,     /* a work area below its stated size, or a step limit above the largest; from the
                                       viewer: a place or number that is not there, or a row that has not the form */
    JEHVRUKAM_NOT_JSON = 2,         /* not an RFC 8259 text in UTF-8 */
    JEHVRUKAM_NAME_OR_SURROGATE = 3, /* a name twice in one object, or a lone surrogate escape */
    JEHVRUKAM_BAD_NUMBER = 4,       /* a fraction or exponent, or an integer beyond the limit */
    JEHVRUKAM_TOO_LARGE = 5,        /* text too long, nested too deep, or too many values */
    JEHVRUKAM_NOT_RULE = 6,         /* the text reads, but is not a rule */
    JEHVRUKAM_WRONG_KIND = 7,       /* an operand of a wrong kind in evaluation */
    JEHVRUKAM_BAD_DATE = 8,         /* a string that is no date text of the wanted forms */
    JEHVRUKAM_OUT_OF_RANGE = 9,     /* a sum beyond the limit of integers, or an instant outside its range */
    JEHVRUKAM_OUT_OF_STEPS = 10,    /* one step more than the limit would be needed */
    JEHVRUKAM_ANSWER_TOO_LARGE = 11, /* the answer passes a limit of texts */
    JEHVRUKAM_OUTPUT_TOO_SHORT = 12, /* the answer's text is longer than the output */
    JEHVRUKAM_NOT_ACCEPTED = 13,    /* the kind check does not pass */
    JEHVRUKAM_NOT_SHEET = 14        /* the text reads, but is not a sheet */
};

/* Which text a refusal from 2 to 5 is about. */
enum {
    JEHVRUKAM_RULE = 1,
    JEHVRUKAM_SHEET = 2,
    JEHVRUKAM_RECORD = 3
};

/*
 * The words of sheets and of the kind check, as bits of a set, and what belongs to each. A sheet spells them in lower
 * case, "null" to "object"; instant is a word of the check only.
 */
#define JEHVRUKAM_WORD_NULL UINT64_C(1)        /* null, and in a record what is not there */
#define JEHVRUKAM_WORD_BOOLEAN UINT64_C(2)
#define JEHVRUKAM_WORD_INTEGER UINT64_C(4)
#define JEHVRUKAM_WORD_STRING UINT64_C(8)      /* every string, a date or a day too */
#define JEHVRUKAM_WORD_DATE UINT64_C(16)       /* a string in one of CertLogic's nineteen date forms, a day too, that
                                                  names an instant of the years 0000 to 9999 */
#define JEHVRUKAM_WORD_DAY UINT64_C(32)        /* a string YYYY, YYYY-MM or YYYY-MM-DD that is a date */
#define JEHVRUKAM_WORD_INTEGERS UINT64_C(64)   /* an array of nothing but integers, the empty one too */
#define JEHVRUKAM_WORD_STRINGS UINT64_C(128)   /* an array of nothing but strings, the empty one too */
#define JEHVRUKAM_WORD_ARRAY UINT64_C(256)     /* every array */
#define JEHVRUKAM_WORD_OBJECT UINT64_C(512)
#define JEHVRUKAM_WORD_INSTANT UINT64_C(1024)  /* what plusTime and dccDateOfBirth give; its text is a string of 24
                                                  bytes such as 2020-03-02T00:00:00.000Z */

/* Kinds of values. A row of kind 0 is unused. */
enum {
    JEHVRUKAM_NULL = 1,
    JEHVRUKAM_FALSE = 2,
    JEHVRUKAM_TRUE = 3,
    JEHVRUKAM_INTEGER = 4,
    JEHVRUKAM_STRING = 5,
    JEHVRUKAM_ARRAY = 6,
    JEHVRUKAM_OBJECT = 7
};

/*
 * Reads a JSON text into a table of rows and an area of decoded names and strings.
 *
 * Given: a text of any length, 0 included; two areas, whatever they hold; and a place. No pointer is null. The text,
 * the areas and the place lie apart: no byte belongs to two of them. No alignment is needed but that of `place`.
 *
 * Answers the first of these that applies:
 *
 *   1  table_len < JEHVRUKAM_TABLE_BYTES or strings_len < JEHVRUKAM_STRINGS_BYTES. Nothing is touched, nor *place.
 *   5  text_len > JEHVRUKAM_MAX_TEXT_BYTES, at place JEHVRUKAM_MAX_TEXT_BYTES.
 *   2 to 5  the fault of the text with the smallest place, which is a number of bytes from the text's begin:
 *      2  the first byte with which the text no longer begins any RFC 8259 text in UTF-8; text_len if it ends too early
 *      3  the closing quote of the second of two equal names of one object (equal when their decoded bytes are), or the
 *         backslash of a complete surrogate escape without a partner
 *      4  the dot, the e or E, or the digit that first passes the limit
 *      5  the opening bracket of the 33rd nesting, or the first byte of the 1,025th value
 *   0  done.
 *
 * After 2 to 5: *place is the place; both areas are zero, through their whole given lengths.
 * After 0: *place is 0; the table has one row for each value, then zeros to its end; the strings area has the decoded
 * UTF-8 bytes of all names and strings in text order, a member's name before its content, with nothing between them (no
 * terminator either), then zeros to its end.
 *
 * A row has JEHVRUKAM_ROW_BYTES bytes, four 32-bit fields with the lowest byte first. Rows stand in text order, the root
 * at 0; the first item of an array or the first member's content of an object at row r is row r + 1. Names have no row.
 *
 *   field 0     kind + 256 * length in bytes of the member's name (0 if the value is no member)
 *   field 1     start of the member's name in the strings area (0 if the value is no member)
 *   field 2, 3  null, false, true: 0, 0
 *               integer: the 64-bit number that is 2^53 more, its low half, its high half
 *               string: its start in the strings area, its length in bytes
 *               array, object: the number of items or members, the row after its last descendant
 */
uint32_t jehvrukam_read(const uint8_t *text, size_t text_len,
                        uint8_t *table, size_t table_len,
                        uint8_t *strings, size_t strings_len,
                        uint64_t *place);

/*
 * Evaluates a rule on a record and writes the answer as a JSON text.
 *
 * Given: two texts of any length, 0 included; a limit (to begin to evaluate a rule, literals included, is one step); a
 * table and a strings area for each text; cells; an output of any length, 0 included; and four numbers. Areas, output
 * and numbers may hold anything. No pointer is null. The texts, the areas, the output and the numbers lie apart: no
 * byte belongs to two of them. No alignment is needed but that of the numbers.
 *
 * Answers the first of these that applies:
 *
 *   1  limit > JEHVRUKAM_MAX_STEPS, a table below JEHVRUKAM_TABLE_BYTES, a strings area below JEHVRUKAM_STRINGS_BYTES,
 *      or cells_len < JEHVRUKAM_CELLS_BYTES. Nothing is touched, nor any of the numbers.
 *   2 to 5  the rule's text does not read, as jehvrukam_read would answer.
 *   6  it reads, but is not a rule.
 *   2 to 5  the record's text does not read.
 *   7 to 10  the first that evaluation meets:
 *      7  an operand of a wrong kind
 *      8  a string that is no date text of the wanted forms
 *      9  a sum beyond JEHVRUKAM_MAX_INTEGER either way, or an instant before the year 0000 or after 9999
 *     10  one step more than the limit would be needed; a limit of 0 is permitted, and gives 10
 *  11  the answer nests deeper than JEHVRUKAM_MAX_NESTING, has more than JEHVRUKAM_MAX_VALUES values, or its text has
 *      more than JEHVRUKAM_MAX_TEXT_BYTES bytes, however long the output is.
 *  12  the answer's text has more than output_len bytes.
 *   0  done.
 *
 * After 2 to 12 all five areas and the output are zero, through their whole given lengths, and
 *
 *   *which   is JEHVRUKAM_RULE or JEHVRUKAM_RECORD after 2 to 5, the text that does not read; else 0
 *   *place   is the place in that text after 2 to 5; else 0
 *   *steps   is 0 after 2 to 6, the limit after 10, else the number of steps begun, also after 11 and 12
 *   *length  is 0.
 *
 * After 0 the tables and strings areas hold what jehvrukam_read leaves there for these texts; the cells are zero; the
 * output holds the answer's text, without a terminator, then zeros to its end; *which and *place are 0, *steps is the
 * number of steps begun, and *length is that of the text, at least 1. The answer true is the text of these four bytes;
 * every other text is another answer.
 */
uint32_t jehvrukam_evaluate(const uint8_t *rule, size_t rule_len,
                            const uint8_t *record, size_t record_len,
                            uint64_t limit,
                            uint8_t *rule_table, size_t rule_table_len,
                            uint8_t *rule_strings, size_t rule_strings_len,
                            uint8_t *record_table, size_t record_table_len,
                            uint8_t *record_strings, size_t record_strings_len,
                            uint8_t *cells, size_t cells_len,
                            uint8_t *output, size_t output_len,
                            uint64_t *which, uint64_t *place, uint64_t *steps, uint64_t *length);

/*
 * Sheets. A sheet says of paths what a record has there. It is an object of at most 256 members; each name is a path as
 * `var` has it, not empty; each content is an array of one or more different words, spelled as above, but not instant:
 *
 *     {"offer.job": ["integer"], "offer.launch": ["date", "null"]}
 *
 * A record fits a sheet if at each listed path its value, null where nothing is, belongs to one of the words. What a
 * sheet does not list may be anything; `a` says nothing of `a.b`. {} is a sheet that every record fits.
 *
 * The kind check finds, for a rule under a sheet, a set of words, or does not pass (13). It is proved that a rule that
 * it accepts never ends with 7 or 8 on a record that fits, and that the answer there belongs to one of the words found.
 * It looks at everything, also at operands that no run begins. It promises nothing of 9 to 12, nor of records that do
 * not fit.
 *
 * The three entries below share this: texts have any length, 0 included; areas and numbers may hold anything; no
 * pointer is null, not even that of a text of 0 bytes; the texts, the areas, the output and the numbers lie apart: no
 * byte belongs to two of them; no alignment is needed but that of the numbers.
 */

/*
 * Checks a rule against a sheet. There is no record and no run.
 *
 * Answers the first of these that applies:
 *
 *   1  a table below JEHVRUKAM_TABLE_BYTES or a strings area below JEHVRUKAM_STRINGS_BYTES. Nothing is touched, nor any
 *      of the numbers.
 *   2 to 5  the rule's text does not read, as jehvrukam_read would answer.
 *   6  it reads, but is not a rule.
 *   2 to 5  the sheet's text does not read.
 *  14  it reads, but is not a sheet.
 *  13  the check does not pass.
 *   0  it passes.
 *
 * After 2 to 6, 13 and 14 all four areas are zero, through their whole given lengths, and
 *
 *   *which   is JEHVRUKAM_RULE or JEHVRUKAM_SHEET after 2 to 5, the text that does not read; else 0
 *   *place   is the place in that text after 2 to 5; else 0
 *   *words   is 0.
 *
 * After 0 *which and *place are 0; *words is the set of words found for the whole rule, at least one bit of the eleven
 * above; the tables and strings areas hold what jehvrukam_read leaves there for these texts.
 *
 *     if (jehvrukam_check(rule, rule_length, sheet, sheet_length, rule_table, sizeof rule_table, rule_strings,
 *                         sizeof rule_strings, sheet_table, sizeof sheet_table, sheet_strings, sizeof sheet_strings,
 *                         &which, &place, &words) == JEHVRUKAM_DONE && words == JEHVRUKAM_WORD_BOOLEAN)
 *         puts("on every record that fits the answer, if it comes to one, is true or false");
 */
uint32_t jehvrukam_check(const uint8_t *rule, size_t rule_len,
                         const uint8_t *sheet, size_t sheet_len,
                         uint8_t *rule_table, size_t rule_table_len,
                         uint8_t *rule_strings, size_t rule_strings_len,
                         uint8_t *sheet_table, size_t sheet_table_len,
                         uint8_t *sheet_strings, size_t sheet_strings_len,
                         uint64_t *which, uint64_t *place, uint64_t *words);

/*
 * Tells whether a record fits a sheet. Not to fit is no refusal.
 *
 * Answers the first of these that applies:
 *
 *   1  a table below JEHVRUKAM_TABLE_BYTES or a strings area below JEHVRUKAM_STRINGS_BYTES. Nothing is touched, nor any
 *      of the numbers.
 *   2 to 5  the sheet's text does not read, as jehvrukam_read would answer.
 *  14  it reads, but is not a sheet.
 *   2 to 5  the record's text does not read.
 *   0  done.
 *
 * After 2 to 5 and 14 all four areas are zero, through their whole given lengths, and
 *
 *   *which   is JEHVRUKAM_SHEET or JEHVRUKAM_RECORD after 2 to 5, the text that does not read; else 0
 *   *place   is the place in that text after 2 to 5; else 0
 *   *fits    is 0.
 *
 * After 0 *which and *place are 0; *fits is 1 if the record fits, and 0 if it does not; the tables and strings areas
 * hold what jehvrukam_read leaves there for these texts.
 */
uint32_t jehvrukam_fits(const uint8_t *sheet, size_t sheet_len,
                        const uint8_t *record, size_t record_len,
                        uint8_t *sheet_table, size_t sheet_table_len,
                        uint8_t *sheet_strings, size_t sheet_strings_len,
                        uint8_t *record_table, size_t record_table_len,
                        uint8_t *record_strings, size_t record_strings_len,
                        uint64_t *which, uint64_t *place, uint64_t *fits);

/*
 * Checks a rule against a sheet, tells whether the record fits, and evaluates the rule on the record, as
 * jehvrukam_evaluate does, whether it fits or not. The output has any length, 0 included.
 *
 * Answers the first of these that applies:
 *
 *   1  limit > JEHVRUKAM_MAX_STEPS, a table below JEHVRUKAM_TABLE_BYTES, a strings area below JEHVRUKAM_STRINGS_BYTES,
 *      or cells_len < JEHVRUKAM_CELLS_BYTES. Nothing is touched, nor any of the numbers.
 *   2 to 5  the rule's text does not read, as jehvrukam_read would answer.
 *   6  it reads, but is not a rule.
 *   2 to 5  the sheet's text does not read.
 *  14  it reads, but is not a sheet.
 *  13  the check does not pass.
 *   2 to 5  the record's text does not read.
 *   7 to 10  the first that evaluation meets; 7 and 8 only on a record that does not fit.
 *  11, 12  the answer is too large, or its text has more than output_len bytes, as with jehvrukam_evaluate.
 *   0  done.
 *
 * After 2 to 14 all seven areas and the output are zero, through their whole given lengths, and
 *
 *   *which   is JEHVRUKAM_RULE, JEHVRUKAM_SHEET or JEHVRUKAM_RECORD after 2 to 5, the text that does not read; else 0
 *   *place   is the place in that text after 2 to 5; else 0
 *   *words   is the set of words found for the whole rule after 7 to 12; else 0
 *   *fits    is 1 after 7 to 12 if the record fits; else 0
 *   *steps   is 0 after 2 to 6, 13 and 14, the limit after 10, else the number of steps begun, also after 11 and 12
 *   *length  is 0.
 *
 * After 0 the tables and strings areas hold what jehvrukam_read leaves there for these texts; the cells are zero; the
 * output holds the answer's text, without a terminator, then zeros to its end; *which and *place are 0, *words is the
 * set of words found, *fits is 1 if the record fits and 0 if it does not, *steps is the number of steps begun, and
 * *length is that of the text, at least 1.
 *
 * After any answer but 1, *words is not 0 exactly if evaluation has begun, and that is so after 0 and after 7 to 12.
 * Then the answer, *steps, *length and the output are those of jehvrukam_evaluate on the same rule, record, limit and
 * output length. Where *fits is 1, the value whose text is written belongs to one of the words. All this is proved.
 */
uint32_t jehvrukam_evaluate_checked(const uint8_t *rule, size_t rule_len,
                                    const uint8_t *sheet, size_t sheet_len,
                                    const uint8_t *record, size_t record_len,
                                    uint64_t limit,
                                    uint8_t *rule_table, size_t rule_table_len,
                                    uint8_t *rule_strings, size_t rule_strings_len,
                                    uint8_t *sheet_table, size_t sheet_table_len,
                                    uint8_t *sheet_strings, size_t sheet_strings_len,
                                    uint8_t *record_table, size_t record_table_len,
                                    uint8_t *record_strings, size_t record_strings_len,
                                    uint8_t *cells, size_t cells_len,
                                    uint8_t *output, size_t output_len,
                                    uint64_t *which, uint64_t *place, uint64_t *words, uint64_t *fits,
                                    uint64_t *steps, uint64_t *length);

/*
 * The viewer. A walk over a table by these five entries, from place 0, sees the whole value of the text that was read,
 * and nothing else; that it does is proved of every table that one of the entries above filled with answer 0. A place
 * is the number of a row: the root's is 0, and jehvrukam_view_part tells those of an array's items, and of the contents
 * of an object's members.
 *
 *     uint64_t kind, count, part, start, length;
 *     if (jehvrukam_view(table, sizeof table, 0, &kind, &count) == JEHVRUKAM_DONE && kind == JEHVRUKAM_OBJECT)
 *         for (uint64_t nth = 0; nth < count; nth++)
 *             if (jehvrukam_view_part(table, sizeof table, 0, nth, &part) == JEHVRUKAM_DONE &&
 *                 jehvrukam_view_name(table, sizeof table, part, &start, &length) == JEHVRUKAM_DONE)
 *                 printf("a member named %.*s\n", (int)length, (const char *)strings + start);
 *
 * The five share this. Given: a table of any length, 0 included, whatever it holds; a place, which may be any number;
 * and one or two numbers to write to, whatever they hold. table_len is the length of the table as it was lent to the
 * entry that filled it. No pointer is null, not even that of a table of 0 bytes. The numbers lie apart from the table
 * and from each other: no byte belongs to two of them. No alignment is needed but that of the numbers. The table is
 * only looked at.
 *
 * Each answers 1 (JEHVRUKAM_BAD_ARGUMENT) or 0. After 1 nothing is written: the numbers are what they were. After 0 all
 * its numbers are written.
 *
 * A table has table_len / JEHVRUKAM_ROW_BYTES rows, rounded down, but never more than JEHVRUKAM_MAX_VALUES. A row is
 * there if its place is below their number. Whether it has the form depends on its bytes, its place and the number of
 * rows: docs/LAYOUT.md, "When a row has the form". Every value of a table that an entry filled has it; the rows behind
 * the last value are zero, and have it not. Of any other table the viewer tells what the rows that have the form say:
 * a part then still lies within what holds it, so a walk ends, but it may go down as deep as there are rows.
 *
 * Starts and lengths are in bytes, in a strings area: the one that was lent together with the table. The table does not
 * say which that is, so with several texts the caller has to know it. A start and its length together are at most
 * JEHVRUKAM_STRINGS_BYTES, whatever the table holds. Names and strings may hold zero bytes, and none follows them.
 */

/*
 * Tells the kind of the value at a place, and how many items or members it has.
 *
 * Answers:
 *
 *   1  the row is not there, or has not the form.
 *   0  done: *kind is one of the kinds above, JEHVRUKAM_NULL to JEHVRUKAM_OBJECT; *count is the number of items of an
 *      array, of members of an object, and 0 of any other value. It is below JEHVRUKAM_MAX_VALUES.
 */
uint32_t jehvrukam_view(const uint8_t *table, size_t table_len, uint64_t place, uint64_t *kind, uint64_t *count);

/*
 * Tells the place of the nth item of the array at a place, or of the content of the nth member of the object there, in
 * the order of the text. The first has the number 0. nth may be any number.
 *
 * Answers:
 *
 *   1  the row is not there, or has not the form; or nth is not below the count that jehvrukam_view tells, which is 0
 *      of a value that is no array or object; or the nth item or member, or one before it, has not the form, or ends
 *      behind the end of the array or object.
 *   0  done: *part is its place, greater than `place` and below the number of rows. The row there has the form.
 *
 * It goes over all items or members before the nth, so it takes the longer the greater nth is.
 */
uint32_t jehvrukam_view_part(const uint8_t *table, size_t table_len, uint64_t place, uint64_t nth, uint64_t *part);

/*
 * Tells the integer at a place.
 *
 * Answers:
 *
 *   1  the row is not there, or has not the form, or its kind is not JEHVRUKAM_INTEGER.
 *   0  done: *value is the integer, from -JEHVRUKAM_MAX_INTEGER to JEHVRUKAM_MAX_INTEGER, whatever the table holds.
 */
uint32_t jehvrukam_view_integer(const uint8_t *table, size_t table_len, uint64_t place, int64_t *value);

/*
 * Tells where the string at a place lies.
 *
 * Answers:
 *
 *   1  the row is not there, or has not the form, or its kind is not JEHVRUKAM_STRING.
 *   0  done: *start is where it begins in the strings area, *length its length.
 */
uint32_t jehvrukam_view_string(const uint8_t *table, size_t table_len, uint64_t place, uint64_t *start,
                               uint64_t *length);

/*
 * Tells where the name of the member whose content is at a place lies.
 *
 * Answers:
 *
 *   1  the row is not there, or has not the form.
 *   0  done: *start is where the name begins in the strings area, *length its length. In a table that an entry filled
 *      both are 0 for a value that is no member: the root, and the items of arrays.
 *
 * A name may be empty, and *start 0 with it. So whether a value is a member is known from what holds it: whether the
 * kind of that is JEHVRUKAM_OBJECT.
 */
uint32_t jehvrukam_view_name(const uint8_t *table, size_t table_len, uint64_t place, uint64_t *start,
                             uint64_t *length);

#ifdef __cplusplus
}
#endif

#endif
