/* Receives the blocks that wait in a pod. From the repository's top, after ./run library:
     cc -std=c99 -Itarget/library/include examples/receive.c target/library/libtolmezha.a -o receive
     rm -f back; mkfifo back && ./run session <back | ./receive >back
   It tells what it learns on standard error, and ends with 0 when all blocks are received and acknowledged, 1 when the
   pod is lost, 2 when a command is refused. A block whose acknowledgement was lost comes again, the same 256 bytes. */
#include <stdio.h>
#include "tolmezha.h"

enum { LOST = -1 };

static uint8_t answer[TOLMEZHA_ANSWER + 1]; /* a byte more than any answer has, so that a longer one is seen */
static uint64_t length;
static int64_t values[TOLMEZHA_VALUES]; /* what the answer says */

/* ---- The link. Only two functions know it: put your serial port there. Here it is lines of `session` and `console`,
   one for each packet and one for what comes back, "P 91 01 26 F4", or "P -" for nothing. */
static int due; /* lines that are still to come back: nobody waits for one after an acknowledgement */

/* Waits for an answer; its length is 0 when none comes in time. */
static void link_receive(void)
{
    unsigned byte;
    int mark = scanf(" P") == EOF ? EOF : getchar();

    for (length = 0; mark == ' ' && scanf("%2x", &byte) == 1; mark = getchar())
        if (length < sizeof answer)
            answer[length++] = (uint8_t)byte;
    while (mark != '\n' && mark != EOF)
        mark = getchar();
    due--;
}

/* Throws away what came too late, and sends a packet. */
static void link_send(const uint8_t *packet, int32_t count)
{
    while (due > 0)
        link_receive();
    putchar('P');
    for (int32_t i = 0; i < count; i++)
        printf(" %02X", packet[i]);
    putchar('\n');
    fflush(stdout);
    due++;
}

/* ---- Sends a command until it is answered. Returns the answer's kind, LOST, or why the command was not built. */
static int32_t ask(const uint8_t *command, int32_t count)
{
    uint32_t state[2];
    int32_t step, kind = LOST;

    if (count < 0)
        return count;
    tolmezha_sent(command[0], state);
    do {
        link_send(command, count);
        link_receive();
        step = length ? tolmezha_reply(state, answer, length, &kind, values) : tolmezha_silence(state);
    } while (step == TOLMEZHA_AGAIN);
    return step == TOLMEZHA_ENDED ? kind : LOST;
}

int main(void)
{
    const uint32_t fields[9] = {[TOLMEZHA_MODE] = 1, [TOLMEZHA_SECONDS] = 22320, [TOLMEZHA_POLL] = 1000,
        [TOLMEZHA_PRIORITY_LIMIT] = 1000, [TOLMEZHA_PRIORITY_REMAINING] = 1000,
        [TOLMEZHA_MEMORY_LIMIT] = 9000, [TOLMEZHA_MEMORY_REMAINING] = 9000};
    uint8_t room[TOLMEZHA_ROOM], block[256];
    unsigned priority, ordinary; /* blocks that wait */
    int32_t kind = ask(room, tolmezha_initialise(fields, room, sizeof room));

    while (kind == TOLMEZHA_DONE || kind == TOLMEZHA_BLOCK) {
        kind = ask(room, tolmezha_status(room, sizeof room));
        if (kind != TOLMEZHA_STATUS)
            break;
        link_send(room, tolmezha_taken(room[0], room, sizeof room)); /* with the command's own code */
        priority = (unsigned)values[TOLMEZHA_STATUS_PRIORITY];
        ordinary = (unsigned)values[TOLMEZHA_STATUS_ORDINARY];
        fprintf(stderr, "waiting: %u priority, %u ordinary\n", priority, ordinary);
        if (priority == 0 && ordinary == 0)
            return 0;
        kind = ask(room, priority ? tolmezha_priority_data(room, sizeof room) : tolmezha_data(room, sizeof room));
        if (kind != TOLMEZHA_BLOCK)
            break;
        tolmezha_block(answer, length, block);
        link_send(room, tolmezha_taken(room[0], room, sizeof room)); /* within 2 ms, or the pod keeps the block */
        fprintf(stderr, "%s:", room[0] == 0x95 ? "priority" : "ordinary");
        for (int i = 0; i < 256; i++)
            fprintf(stderr, " %02X%s", block[i], i < 255 ? "" : "\n");
    }
    if (kind == LOST)
        fprintf(stderr, "the pod is lost\n");
    else if (kind == TOLMEZHA_ERROR)
        fprintf(stderr, "the pod answers with error %02X\n", (unsigned)values[0]);
    else
        fprintf(stderr, "not built: %d\n", (int)kind);
    return kind == LOST ? 1 : 2;
}
