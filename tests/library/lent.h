/* Memory as calls.c lends it: filled beforehand, in one of two ways, and looked at afterwards. */
#ifndef LENT_H
#define LENT_H

#include <stdint.h>

enum { GUARD = 16, LONGEST = 1024 };
extern const uint8_t FILLS[2];

void fill(void *at, uint64_t length, uint8_t byte);
/* Whether it is as it was filled, but for a part. */
int filled_but(const void *lent, uint64_t length, uint64_t from, uint64_t count, uint8_t byte);
int same(const uint8_t *one, const uint8_t *other, uint64_t length);
void copy(uint8_t *to, const uint8_t *from, uint64_t length);

/* Bytes that a call only reads, laid where it finds them, at most LONGEST; and whether they are as they were, with all around them. */
const uint8_t *laid(const uint8_t *bytes, uint64_t length, uint32_t turn);
int unchanged(const uint8_t *bytes, uint64_t length, uint32_t turn);

#endif
