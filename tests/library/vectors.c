/* Reads include/vectors.txt and prints each case anew: what stands before '=' as it came, and behind it what the library says. What
 * stood behind it is not looked at. Where a call does something wrong that its line can't show, the line begins with WRONG and says
 * what. */
#include "calls.h"
#include "lines.h"

static struct reply reply;

/* ---- a line of each kind: whether it has the right form */

static int crc_line(void)
{
    reply.length = bytes(reply.bytes, LONGEST);
    if (*at)
        return 0;
    put_hex(crc(reply.bytes, reply.length), 4);
    return 1;
}

static void put_refusal(int32_t said)
{
    put('!');
    put_decimal(-(int64_t)said);
}

static void put_built(const struct asked *asked)
{
    uint8_t room[LARGE];
    int32_t count = build(asked, room);
    if (count <= 0)
        put_refusal(count);
    for (int32_t i = 0; i < count && i < LARGE; i++) {
        if (i)
            put(' ');
        put_hex(room[i], 2);
    }
}

/* How many numbers a command has, or -1. */
static int numbers_of(uint32_t code)
{
    switch (code) {
    case 0x90:
    case 0x92:
        return 9;
    case 0x93:
        return 2;
    case 0x94:
        return 1;
    case 0x91:
    case 0x95:
    case 0x96:
    case 0x9F:
        return 0;
    default:
        return -1;
    }
}

static int build_line(void)
{
    struct asked asked = {COMMAND, 0, {0}, 0};
    if (!hex(&asked.code, 2) || numbers_of(asked.code) < 0)
        return 0;
    for (int i = 0; i < numbers_of(asked.code); i++) {
        int is_value = asked.code == 0x93 && i == 1;
        int64_t number, least = is_value ? -0x80000000LL : 0, most = least + 0xFFFFFFFF;
        if (!decimal(&number) || number < least || number > most)
            return 0;
        if (is_value)
            asked.value = (int32_t)number;
        else
            asked.numbers[i] = (uint32_t)number;
    }
    if (*at)
        return 0;
    put_built(&asked);
    return 1;
}

static int acknowledge_line(void)
{
    struct asked asked = {TAKEN, 0, {0}, 0};
    if (!hex(&asked.code, 8))
        return 0;
    if (hex(&asked.numbers[0], 8))
        asked.form = FAILED;
    if (*at)
        return 0;
    put_built(&asked);
    return 1;
}

static void put_meaning(const struct meaning *meaning)
{
    static const char *const kinds[] = {"done", "error ", "status", "value", "block"};
    int32_t kind = meaning->kind, count = kind == TOLMEZHA_STATUS ? TOLMEZHA_VALUES : kind == TOLMEZHA_VALUE ? 2 : 0;
    if (kind < TOLMEZHA_DONE || kind > TOLMEZHA_BLOCK) {
        put_refusal(kind);
        return;
    }
    put_text(kinds[kind]);
    if (kind == TOLMEZHA_ERROR) {
        if (meaning->values[0] < 0 || meaning->values[0] > 0xFF)
            complain("an error that is no byte");
        put_hex((uint32_t)meaning->values[0], 2);
    }
    for (int32_t i = 0; i < count; i++) {
        put(' ');
        put_decimal(meaning->values[i]);
    }
}

static int read_line(void)
{
    struct meaning meaning;
    uint32_t code;
    if (!hex(&code, 8) || !word(" :"))
        return 0;
    reply.length = bytes(reply.bytes, LONGEST);
    if (*at)
        return 0;
    read_as(code, reply.bytes, reply.length, &meaning);
    put_meaning(&meaning);
    return 1;
}

static void put_step(uint32_t code, uint32_t state[2])
{
    static const char *const steps[] = {"idle", "ended", "again", "lost"};
    struct meaning meaning;
    int32_t next = step(state, &reply, &meaning);
    unshown(code, &reply);
    if (next < TOLMEZHA_IDLE || next > TOLMEZHA_LOST) {
        complain("a step that is none");
        return;
    }
    if (!reply.silent && next != TOLMEZHA_IDLE) {
        put_meaning(&meaning);
        put(' ');
    }
    put_text(steps[next]);
}

static int send_line(void)
{
    uint32_t code, state[2];
    if (!hex(&code, 8) || !word(" :"))
        return 0;
    begin(code, state);
    for (;;) {
        reply.silent = word(" -");
        reply.length = reply.silent ? 0 : bytes(reply.bytes, LONGEST);
        if (!reply.silent && reply.length == 0)
            return 0;
        put_step(code, state);
        if (!word(" /"))
            return !*at;
        put_text(" / ");
    }
}

static int any_line(void)
{
    if (word("crc"))
        return crc_line();
    if (word("build"))
        return build_line();
    if (word("acknowledge"))
        return acknowledge_line();
    if (word("read"))
        return read_line();
    return word("send") && send_line();
}

int main(void)
{
    while (next_line() && !broken) {
        if (!line[0] || line[0] == '#')
            continue;
        wrong = 0;
        put_text(line);
        put_text(" = ");
        if (!any_line())
            complain("this is no case");
        if (wrong) {
            put_nothing();
            put_text("WRONG ");
            put_text(wrong);
            put_text(": ");
            put_text(line);
        }
        put_out();
    }
    return broken;
}
