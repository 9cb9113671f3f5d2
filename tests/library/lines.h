/* The lines of vectors.c: read, taken apart, and printed. */
#ifndef LINES_H
#define LINES_H

#include <stdint.h>

/* Where there is no Linux, whoever runs the vectors supplies these two (tests/board/start.c does): up to `length` bytes of the vectors
 * come in, or of the lines that are printed go out. Each returns how many: 0 at the end of the vectors, below 0 where it failed. */
int32_t vectors_read(void *into, uint32_t length);
int32_t vectors_write(const void *from, uint32_t length);

/* The line that was read, and the place in it up to which it has been taken. */
extern char line[];
extern const char *at;
/* Reading or writing failed. */
extern int broken;

/* The next line comes in, without its end and without what stands from " =" on: 0 at the end of the input. */
int next_line(void);
/* Each takes what it names from the place on, with a space or the end behind it; where it isn't there, nothing is taken. */
int word(const char *due);
int hex(uint32_t *number, uint32_t most); /* a space and 2 to `most` capital hex digits */
int decimal(int64_t *number);             /* a space and a number, with its sign where it has one */
uint64_t bytes(uint8_t *into, uint64_t most);

void put(char letter);
void put_text(const char *text);
void put_hex(uint32_t number, uint32_t digits); /* with more digits where it has them */
void put_decimal(int64_t number);
/* What was put goes out as a line. */
void put_out(void);
/* What was put is dropped. */
void put_nothing(void);

#endif
