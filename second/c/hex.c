#include "hex.h"

/* 16 for a byte that is no digit. */
static unsigned digit(uint8_t byte)
{
    if (byte >= '0' && byte <= '9')
        return byte - '0';
    return byte >= 'a' && byte <= 'f' ? byte - 'a' + 10u : 16u;
}

int decode(uint8_t *line, size_t digits)
{
    if (digits % 2 != 0)
        return 0;
    for (size_t at = 0; at < digits; at += 2) {
        unsigned high = digit(line[at]), low = digit(line[at + 1]);
        if (high > 15 || low > 15)
            return 0;
        line[at / 2] = (uint8_t)(16 * high + low);
    }
    return 1;
}

uint64_t next_field(fields *from, size_t width)
{
    uint64_t number = 0;
    for (size_t k = 0; k < width; k++)
        number = number << 8 | from->bytes[k];
    from->bytes += width;
    from->left -= width;
    return number;
}

uint8_t *put_field(uint8_t *line, uint64_t number, unsigned width)
{
    for (unsigned place = 2 * width; place > 0; place--)
        *line++ = (uint8_t)"0123456789abcdef"[number >> 4 * (place - 1) & 15];
    return line;
}
