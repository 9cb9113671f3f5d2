/* ./packet N WAITING: the packet 96 01 with its CRC, answered by hand-written C, N times.
 *
 * The same job as the packet call: room, sizes and the bounds of the state that document 01 lists are judged, the packet is read, an open
 * exchange is closed, the rules are asked, and the oldest block goes into the room with its CRC. The state is changed
 * where it stands. The CRC is the one by slicing, which is the fastest here that C has without special instructions. */
#include <stdbool.h>
#include <stdio.h>
#include <stdlib.h>
#include <string.h>
#include "crc.h"

struct ring { size_t oldest, waiting; };
struct row { int32_t least, most; };
enum exchange { CLOSED, STATUS, READ, PRIORITY, DATA };
enum transfer { IDLE, ADDRESS, LOADING, READING };

struct pod {
    bool initialised;
    uint8_t mode;
    uint16_t flags, milliseconds, prioritylimit, priorityremaining, poll;
    uint32_t seconds, memorylimit, memoryremaining;
    int32_t values[12];
    bool written[12];
    enum exchange exchange;
    bool error;
    enum transfer transfer;
    size_t table, n, k, start, places[3];
    uint16_t load[64];
    struct ring priority, ordinary;
    uint8_t bytes[8], timeouts;
    size_t gathered;
};

static const struct row rows[12] = {
    {-4000, 15000}, {-4000, 15000}, {100, 1000}, {40, 60000}, {1, 16}, {-4000, 15000},
    {0, 3}, {0, 7}, {-500, 500}, {-500, 500}, {-500, 500}, {-500, 500},
};
static const size_t sizes[3] = {64, 128, 64};

static bool sound(const struct pod *p)
{
    if (p->priority.oldest >= 16 || p->priority.waiting > 16 || p->ordinary.oldest >= 128 || p->ordinary.waiting > 128)
        return false;
    for (int i = 0; i < 12; i++)
        if (p->values[i] < rows[i].least || p->values[i] > rows[i].most)
            return false;
    if (p->values[0] >= p->values[1] || p->mode > 3 || p->milliseconds > 999 || p->poll < 1 || p->poll > 60000)
        return false;
    if (p->priorityremaining > p->prioritylimit || p->memoryremaining > p->memorylimit)
        return false;
    if (p->gathered > 7 || p->timeouts > 15)
        return false;
    for (int t = 0; t < 3; t++)
        if (p->places[t] > sizes[t])
            return false;
    if (p->transfer >= LOADING && (p->n < 4 || p->n > 64 || p->k >= p->n))
        return false;
    if (p->transfer == READING && p->start + p->n - 3 > sizes[p->table])
        return false;
    return p->initialised || (p->exchange == CLOSED && p->transfer == IDLE);
}

static size_t close_answer(uint8_t *room, size_t end)
{
    uint16_t c = crc_slicing(0xFFFF, room, end);
    room[end] = (uint8_t)(c >> 8);
    room[end + 1] = (uint8_t)c;
    return end + 2;
}

static size_t short_answer(uint8_t *room, uint8_t first, uint8_t second, uint8_t third)
{
    room[0] = first;
    room[1] = second;
    room[2] = third;
    return close_answer(room, 3);
}

static size_t receive(struct pod *p, struct ring *ring, uint32_t remaining, enum exchange exchange, const uint8_t *store,
                      uint8_t *room, uint8_t first)
{
    if (ring->waiting == 0)
        return short_answer(room, first, 9, 0x3A);
    if (remaining == 0)
        return short_answer(room, first, 9, 0x3B);
    p->exchange = exchange;
    room[0] = first;
    room[1] = 1;
    memcpy(room + 2, store + ring->oldest * 256, 256);
    return close_answer(room, 258);
}

/* With -DCALLED the compiler knows nothing of the caller, as with a call that firmware makes. */
#ifdef CALLED
#define FORM __attribute__((noipa))
#else
#define FORM __attribute__((noinline)) static
#endif

/* The length of the answer, or less than 0 for a refused call. The other commands are left out: they cost nothing here. */
FORM int packet(struct pod *p, const uint8_t *bytes, size_t n, uint8_t *room, size_t rooms, const uint8_t *priority,
                size_t priorities, const uint8_t *ordinary, size_t ordinaries, size_t fives, size_t sixes, size_t sevens)
{
    if (rooms < 260)
        return -1;
    if (priorities != 4096 || ordinaries != 32768 || fives != 64 || sixes != 128 || sevens != 64)
        return -2;
    if (!sound(p))
        return -3;
    if (n == 0)
        return 0;
    uint8_t first = bytes[0];
    bool right = n >= 4 && crc_slicing(0xFFFF, bytes, n - 2) == (bytes[n - 2] << 8 | bytes[n - 1]);
    bool acknowledges = right && n == 5 && first >> 4 == 9 && ((bytes[1] == 1 && bytes[2] == 0x7E) || bytes[1] == 9);
    p->exchange = CLOSED;
    if (!right)
        return (int)short_answer(room, first, 9, 1);
    if (acknowledges)
        return 0;
    if (first != 0x95 && first != 0x96)
        return (int)short_answer(room, first, 9, 2);
    if (bytes[1] != 1)
        return (int)short_answer(room, first, 9, 0x3C);
    if (n != 4)
        return (int)short_answer(room, first, 9, 1);
    if (!p->initialised)
        return (int)short_answer(room, first, 9, 0x38);
    if (first == 0x95)
        return (int)receive(p, &p->priority, p->priorityremaining, PRIORITY, priority, room, first);
    return (int)receive(p, &p->ordinary, p->memoryremaining, DATA, ordinary, room, first);
}

int main(int argc, char **argv)
{
    static uint8_t priority[4096], ordinary[32768], room[260];
    static struct pod pod = {
        .initialised = true, .poll = 1000, .memorylimit = 0xFFFFFFFF, .memoryremaining = 0xFFFFFFFF,
        .prioritylimit = 0xFFFF, .priorityremaining = 0xFFFF,
        .values = {-2000, 12000, 950, 1000, 16, 2000}, .ordinary = {3, 0},
    };
    if (argc != 3)
        return 2;
    crc_prepare();
    for (size_t i = 0; i < sizeof priority; i++)
        priority[i] = (uint8_t)(i % 251);
    for (size_t i = 0; i < sizeof ordinary; i++)
        ordinary[i] = (uint8_t)(i % 251);
    pod.ordinary.waiting = (size_t)atol(argv[2]);
    uint8_t ask[4] = {0x96, 1};
    close_answer(ask, 2);
    int n = 0;
    for (long k = atol(argv[1]); k > 0; k--)
        n = packet(&pod, ask, 4, room, sizeof room, priority, sizeof priority, ordinary, sizeof ordinary, 64, 128, 64);
    printf("P");
    for (int i = 0; i < n; i++)
        printf(" %02X", room[i]);
    puts("");
    return 0;
}
