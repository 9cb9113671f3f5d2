/* The calls that vectors.c makes, each with what its line can't show. */
#ifndef CALLS_H
#define CALLS_H

#include <stdint.h>

#include "lent.h"
#include "tolmezha.h"

enum { LARGE = 40 };

/* The first thing that was wrong with the calls of a line, or 0. */
extern const char *wrong;
void complain(const char *what);

/* What is to be built: the command of a code with its numbers, or one of the two acknowledgements. */
enum form { COMMAND, TAKEN, FAILED };
struct asked {
    enum form form;
    uint32_t code;
    uint32_t numbers[9]; /* nine fields, an id, or an error */
    int32_t value;
};

/* A reply, or none. */
struct reply {
    int silent;
    uint64_t length;
    uint8_t bytes[LONGEST];
};

struct meaning {
    int32_t kind;
    int64_t values[TOLMEZHA_VALUES];
};

uint32_t crc(const uint8_t *bytes, uint64_t length);
/* How many bytes were built, or the refusal. */
int32_t build(const struct asked *asked, uint8_t bytes[LARGE]);
void read_as(uint32_t code, const uint8_t *answer, uint64_t length, struct meaning *meaning);
/* The state after a first send. */
void begin(uint32_t code, uint32_t state[2]);
/* The step that a reply leads to; what it means where it was read. */
int32_t step(uint32_t state[2], const struct reply *reply, struct meaning *meaning);
/* What no line can show: states that are none, and a code that is no command's, each with this reply; and an answer of no bytes to
 * this code. */
void unshown(uint32_t code, const struct reply *reply);

#endif
