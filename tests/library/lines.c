/* Lines in and out. It needs no C library but the two functions that lines.h tells of. */
#include "lines.h"

#ifdef __linux__
#include <unistd.h>

int32_t vectors_read(void *into, uint32_t length)
{
    return (int32_t)read(0, into, length);
}

int32_t vectors_write(const void *from, uint32_t length)
{
    return (int32_t)write(1, from, length);
}
#endif

enum { LINE = 1 << 14, PIECE = 1 << 12 };

char line[LINE];
const char *at;
int broken;
static char said[LINE];
static uint32_t said_length;

/* The next byte of the input, or -1. */
static int next_byte(void)
{
    static uint8_t piece[PIECE];
    static uint32_t length, place;
    if (place == length) {
        int32_t came = vectors_read(piece, PIECE);
        if (came < 0)
            broken = 1;
        if (came <= 0)
            return -1;
        length = (uint32_t)came;
        place = 0;
    }
    return piece[place++];
}

int next_line(void)
{
    uint32_t length = 0, end;
    int byte = next_byte();
    if (byte < 0)
        return 0;
    for (; byte >= 0 && byte != '\n'; byte = next_byte())
        if (length < LINE - 1)
            line[length++] = (char)byte;
        else
            broken = 1;
    for (end = 0; end < length; end++)
        if (line[end] == ' ' && end + 1 < length && line[end + 1] == '=')
            break;
    line[end] = 0;
    at = line;
    return 1;
}

/* ---- taken apart */

/* A space or the end: then all before it is taken. */
static int taken(const char *here)
{
    if (*here && *here != ' ')
        return 0;
    at = here;
    return 1;
}

int word(const char *due)
{
    const char *here = at;
    for (; *due && *here == *due; due++)
        here++;
    return !*due && taken(here);
}

static int digit(char letter)
{
    if (letter >= '0' && letter <= '9')
        return letter - '0';
    return letter >= 'A' && letter <= 'F' ? letter - 'A' + 10 : -1;
}

int hex(uint32_t *number, uint32_t most)
{
    const char *here = at + 1;
    uint32_t count = 0, found = 0;
    if (*at != ' ')
        return 0;
    for (; digit(*here) >= 0 && count < most; here++, count++)
        found = found << 4 | (uint32_t)digit(*here);
    if (count < 2 || !taken(here))
        return 0;
    *number = found;
    return 1;
}

int decimal(int64_t *number)
{
    const char *here = at + 1;
    uint32_t count = 0;
    int64_t found = 0;
    if (*at != ' ')
        return 0;
    int below = *here == '-';
    for (here += below; *here >= '0' && *here <= '9' && count < 10; here++, count++)
        found = found * 10 + (*here - '0');
    if (count == 0 || !taken(here))
        return 0;
    *number = below ? -found : found;
    return 1;
}

uint64_t bytes(uint8_t *into, uint64_t most)
{
    uint64_t length = 0;
    uint32_t byte;
    while (length < most && hex(&byte, 2))
        into[length++] = (uint8_t)byte;
    return length;
}

/* ---- printed */

void put(char letter)
{
    if (said_length < LINE)
        said[said_length++] = letter;
    else
        broken = 1;
}

void put_text(const char *text)
{
    while (*text)
        put(*text++);
}

void put_hex(uint32_t number, uint32_t digits)
{
    uint32_t shift = 28;
    while (shift >= 4 * digits && number >> shift == 0)
        shift -= 4;
    for (;; shift -= 4) {
        put("0123456789ABCDEF"[number >> shift & 15]);
        if (shift == 0)
            return;
    }
}

void put_decimal(int64_t number)
{
    uint64_t size = number < 0 ? 0 - (uint64_t)number : (uint64_t)number;
    char digits[20];
    uint32_t count = 0;
    for (; size > 9; size /= 10)
        digits[count++] = (char)('0' + size % 10);
    if (number < 0)
        put('-');
    put((char)('0' + size));
    while (count)
        put(digits[--count]);
}

void put_nothing(void)
{
    said_length = 0;
}

void put_out(void)
{
    const char *text = said;
    put('\n');
    while (said_length && !broken) {
        int32_t gone = vectors_write(text, said_length);
        if (gone <= 0) {
            broken = 1;
            return;
        }
        text += gone;
        said_length -= (uint32_t)gone;
    }
}
