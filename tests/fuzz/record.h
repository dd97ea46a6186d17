/* The record, read back. */
#ifndef RECORD_H
#define RECORD_H

#include <stddef.h>
#include <stdint.h>

/* Takes a number of the record's form off the front of the bytes: shortest form, at most 64 bits. Answers how many bytes it has, or 0. */
size_t read_number(const uint8_t *bytes, size_t len, uint64_t *n);

/* Whether the bytes are one whole record that a line of so many bytes can have. Tells what was met. */
int is_record(const uint8_t *bytes, size_t len, size_t line_len);

#endif
