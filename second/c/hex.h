/* Lowercase hexadecimal, big-endian: the writing of every line. */
#ifndef HEX_H
#define HEX_H

#include <stddef.h>
#include <stdint.h>

/* Turns the digits of a line into bytes, in place; 0 if a byte is no digit or their number is odd. */
int decode(uint8_t *line, size_t digits);

/* Hands out one number after another from decoded bytes. */
typedef struct {
    const uint8_t *bytes;
    size_t left;
} fields;

/* The next `width` bytes, of which there must be so many left. */
uint64_t next_field(fields *from, size_t width);

/* Writes a number in `width` bytes, two digits each, at `line`; hands back where it ends. */
uint8_t *put_field(uint8_t *line, uint64_t number, unsigned width);

#endif
