/*
 * The writer by itself: the entry of the crate test_writer, for tests and benchmarks. It is no part of the product's
 * library.
 */
#ifndef WRITER_C_H
#define WRITER_C_H

#include <stddef.h>
#include <stdint.h>

#ifdef __cplusplus
extern "C" {
#endif

/*
 * Writes the value of cell number `cell` (null where there is none) and answers 0, 11 or 12. *size is the length of the
 * text, 0 on a refusal; the output holds the text and then zeros, on a refusal zeros only. docs/LAYOUT.md says what a
 * cell is. The areas and the output lie apart; no pointer is null.
 */
uint32_t writer_write(const uint8_t *rule_strings, size_t rule_strings_len,
                      const uint8_t *strings, size_t strings_len,
                      const uint8_t *table, size_t table_len,
                      const uint8_t *cells, size_t cells_len,
                      uint64_t cell, uint8_t *output, size_t output_len, uint64_t *size);

#ifdef __cplusplus
}
#endif

#endif
