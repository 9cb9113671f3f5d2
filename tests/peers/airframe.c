/* ./airframe build|read N: an Initialise of 25 bytes built, or an answer of 260 bytes to the code 0x96 read, by
 * hand-written C, N times.
 *
 * The same jobs as the aircraft's half has. Building: every field is judged, then the room, and the command goes into the
 * room with its CRC. Reading: the CRC, the first two bytes, the length that these call for and the 0x7E are judged, and
 * the meaning is given, a block as the place in the answer where it begins. The CRC is the one by a table of 256 entries;
 * with -DSLICING it is the one by slicing, which is the fastest here that C has without special instructions. */
#include <stdbool.h>
#include <stdio.h>
#include <stdlib.h>
#include <string.h>
#include "crc.h"

#ifdef SLICING
#define CRC crc_slicing
#else
#define CRC crc_bytewise
#endif

/* With -DCALLED the compiler knows nothing of the caller, as with a call that firmware makes. */
#ifdef CALLED
#define FORM __attribute__((noipa))
#else
#define FORM __attribute__((noinline)) static
#endif

enum code { INITIALISE = 0x90, STATUS, UPDATE, WRITE, READ, PRIORITY, DATA, SHUTDOWN = 0x9F };

struct fields {
    uint8_t mode;
    uint16_t flags, milliseconds, prioritylimit, priorityremaining, poll;
    uint32_t seconds, memorylimit, memoryremaining;
};

struct command {
    enum code code;
    struct fields fields;
    uint8_t id;
    int32_t value;
};

struct row { int32_t least, most; };

static const struct row rows[12] = {
    {-4000, 15000}, {-4000, 15000}, {100, 1000}, {40, 60000}, {1, 16}, {-4000, 15000},
    {0, 3}, {0, 7}, {-500, 500}, {-500, 500}, {-500, 500}, {-500, 500},
};

static bool within(const struct command *c)
{
    const struct fields *f = &c->fields;
    switch (c->code) {
    case INITIALISE:
    case UPDATE:
        return f->mode <= 3 && f->seconds < 1u << 22 && f->milliseconds <= 999 && f->priorityremaining <= f->prioritylimit
            && f->memoryremaining <= f->memorylimit && f->poll >= 1 && f->poll <= 60000;
    case WRITE:
        return c->id >= 1 && c->id <= 12 && c->value >= rows[c->id - 1].least && c->value <= rows[c->id - 1].most;
    case READ:
        return c->id >= 1 && c->id <= 12;
    default:
        return true;
    }
}

static uint8_t *put16(uint8_t *p, uint16_t n)
{
    p[0] = (uint8_t)(n >> 8);
    p[1] = (uint8_t)n;
    return p + 2;
}

static uint8_t *put32(uint8_t *p, uint32_t n)
{
    return put16(put16(p, (uint16_t)(n >> 16)), (uint16_t)n);
}

static uint8_t *put_fields(uint8_t *p, const struct fields *f)
{
    *p++ = f->mode;
    p = put16(p, f->flags);
    p = put32(p, f->seconds << 10 | f->milliseconds);
    p = put16(p, f->prioritylimit);
    p = put16(p, f->priorityremaining);
    p = put32(p, f->memorylimit);
    p = put32(p, f->memoryremaining);
    return put16(p, f->poll);
}

/* The length of the command in the room, or less than 0 for a refused call. */
FORM int build(const struct command *c, uint8_t *room, size_t rooms)
{
    if (!within(c))
        return -20;
    if (rooms < 25)
        return -24;
    uint8_t *p = room;
    *p++ = (uint8_t)c->code;
    *p++ = 1;
    if (c->code == INITIALISE || c->code == UPDATE)
        p = put_fields(p, &c->fields);
    if (c->code == WRITE || c->code == READ)
        *p++ = c->id;
    if (c->code == WRITE)
        p = put32(p, (uint32_t)c->value);
    p = put16(p, CRC(0xFFFF, room, (size_t)(p - room)));
    return (int)(p - room);
}

enum kind { WRONG, DONE, ERROR, POD_STATUS, VALUE, BLOCK };

struct meaning {
    enum kind kind;
    uint8_t error, mode, request, ids[8], id;
    uint16_t flags, priority;
    uint32_t ordinary;
    int32_t value;
    const uint8_t *block;
};

static uint16_t get16(const uint8_t *p)
{
    return (uint16_t)(p[0] << 8 | p[1]);
}

static uint32_t get32(const uint8_t *p)
{
    return (uint32_t)get16(p) << 16 | get16(p + 2);
}

static size_t length_of(uint8_t code)
{
    switch (code) {
    case INITIALISE: case UPDATE: case WRITE: case SHUTDOWN: return 5;
    case STATUS: return 22;
    case READ: return 9;
    case PRIORITY: case DATA: return 260;
    default: return 0;
    }
}

static void read_body(uint8_t code, const uint8_t *body, struct meaning *m)
{
    switch (code) {
    case STATUS:
        m->kind = POD_STATUS;
        m->mode = body[0];
        m->flags = get16(body + 1);
        m->priority = get16(body + 3);
        m->ordinary = get32(body + 5);
        m->request = body[9];
        memcpy(m->ids, body + 10, 8);
        break;
    case READ:
        m->kind = VALUE;
        m->id = body[0];
        m->value = (int32_t)get32(body + 1);
        break;
    case PRIORITY:
    case DATA:
        m->kind = BLOCK;
        m->block = body;
        break;
    default:
        m->kind = body[0] == 0x7E ? DONE : WRONG;
    }
}

/* What an answer to a command of this code means. */
FORM void read_answer(uint8_t code, const uint8_t *answer, size_t n, struct meaning *m)
{
    m->kind = WRONG;
    size_t length = length_of(code);
    if (length == 0 || n < 5 || answer[0] != code || (answer[1] != 1 && answer[1] != 9))
        return;
    if (n != (answer[1] == 9 ? 5 : length) || CRC(0xFFFF, answer, n - 2) != get16(answer + n - 2))
        return;
    if (answer[1] == 9) {
        m->kind = ERROR;
        m->error = answer[2];
        return;
    }
    read_body(code, answer + 2, m);
}

static void show(const char *word, const uint8_t *bytes, size_t n)
{
    printf("%s", word);
    for (size_t i = 0; i < n; i++)
        printf(" %02X", bytes[i]);
    puts("");
}

/* So that each turn of the loop makes its call. */
#define NEWLY(p) __asm__ volatile("" : : "r"(p) : "memory")

static void builds(long times)
{
    static struct command command = {
        .code = INITIALISE,
        .fields = {.mode = 1, .flags = 0x1234, .seconds = 1, .prioritylimit = 16, .priorityremaining = 16,
                   .memorylimit = 128, .memoryremaining = 128, .poll = 1000},
    };
    static uint8_t room[25];
    int n = 0;
    for (; times > 0; times--) {
        NEWLY(&command);
        n = build(&command, room, sizeof room);
    }
    show("P", room, n > 0 ? (size_t)n : 0);
}

static void reads(long times)
{
    static uint8_t answer[260] = {0x96, 1};
    static struct meaning meaning;
    for (int i = 0; i < 256; i++)
        answer[2 + i] = (uint8_t)(i % 251);
    put16(answer + 258, crc_bytewise(0xFFFF, answer, 258));
    for (; times > 0; times--) {
        NEWLY(answer);
        read_answer(0x96, answer, sizeof answer, &meaning);
    }
    show("R data", meaning.block, meaning.kind == BLOCK ? 256 : 0);
}

int main(int argc, char **argv)
{
    if (argc != 3)
        return 2;
    crc_prepare();
    (!strcmp(argv[1], "build") ? builds : reads)(atol(argv[2]));
    return 0;
}
