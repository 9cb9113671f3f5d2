/* Memory that is lent to a call. */
#include "lent.h"

const uint8_t FILLS[2] = {0x5A, 0xA5};
static uint8_t shown[GUARD + LONGEST + GUARD];

void fill(void *at, uint64_t length, uint8_t byte)
{
    for (uint64_t i = 0; i < length; i++)
        ((uint8_t *)at)[i] = byte;
}

static int filled(const uint8_t *at, uint64_t length, uint8_t byte)
{
    for (uint64_t i = 0; i < length; i++)
        if (at[i] != byte)
            return 0;
    return 1;
}

int filled_but(const void *lent, uint64_t length, uint64_t from, uint64_t count, uint8_t byte)
{
    const uint8_t *at = lent;
    return filled(at, from, byte) && filled(at + from + count, length - from - count, byte);
}

int same(const uint8_t *one, const uint8_t *other, uint64_t length)
{
    for (uint64_t i = 0; i < length; i++)
        if (one[i] != other[i])
            return 0;
    return 1;
}

void copy(uint8_t *to, const uint8_t *from, uint64_t length)
{
    for (uint64_t i = 0; i < length; i++)
        to[i] = from[i];
}

const uint8_t *laid(const uint8_t *bytes, uint64_t length, uint32_t turn)
{
    fill(shown, sizeof shown, FILLS[turn]);
    copy(shown + GUARD + turn, bytes, length);
    return shown + GUARD + turn;
}

int unchanged(const uint8_t *bytes, uint64_t length, uint32_t turn)
{
    return same(shown + GUARD + turn, bytes, length) && filled_but(shown, sizeof shown, GUARD + turn, length, FILLS[turn]);
}
