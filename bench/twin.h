/* The twins: the reader, the test and the search in plain C, to measure the
 * product against. They go about it as the product does and share no code with
 * it. They test what the product tests and give the same answers. With `lanes`
 * a command is run with 64 choice words at a time, without with one. */
#ifndef TWIN_H
#define TWIN_H

#include "nutseason.h"

uint64_t twin_read(const uint8_t *text, size_t text_len);

uint64_t twin_test(const uint8_t *text, size_t text_len, const uint8_t *sheet,
                   size_t sheet_len, int lanes);

uint64_t twin_search(const uint8_t *text, size_t text_len,
                     uint16_t *first, size_t first_len,
                     uint16_t *second, size_t second_len,
                     uint8_t *sheet, size_t sheet_len, int lanes);

#endif
