/* Each call of the library, made twice. What it is lent lies each time among other memory, which is filled differently: what the call
 * should set is the same both times, and all else is as it was. Bytes lie at an even address the one time, and at an odd one the
 * other. */
#include "calls.h"

enum { BESIDE = 2, SENDS = 4, BLOCK = 256, FIELDS = 9, UNREAD = -1, WORD = sizeof(uint32_t), WIDE = sizeof(int64_t) };

const char *wrong;

void complain(const char *what)
{
    if (!wrong)
        wrong = what;
}

/* What a call only reads is as it was. */
static void look(const uint8_t *bytes, uint64_t length, uint32_t turn)
{
    if (!unchanged(bytes, length, turn))
        complain("bytes that are only to be read were changed, or some beside them");
}

uint32_t crc(const uint8_t *bytes, uint64_t length)
{
    uint32_t found[2];
    for (uint32_t turn = 0; turn < 2; turn++) {
        found[turn] = tolmezha_crc(laid(bytes, length, turn), length);
        look(bytes, length, turn);
    }
    if (found[0] != found[1])
        complain("the same bytes have another CRC elsewhere");
    return found[0];
}

/* ---- building */

static int32_t command(const struct asked *asked, const uint32_t fields[FIELDS], uint8_t *room, uint64_t length)
{
    switch (asked->code) {
    case 0x90:
        return tolmezha_initialise(fields, room, length);
    case 0x91:
        return tolmezha_status(room, length);
    case 0x92:
        return tolmezha_update(fields, room, length);
    case 0x93:
        return tolmezha_parameter_write(asked->numbers[0], asked->value, room, length);
    case 0x94:
        return tolmezha_parameter_read(asked->numbers[0], room, length);
    case 0x95:
        return tolmezha_priority_data(room, length);
    case 0x96:
        return tolmezha_data(room, length);
    default:
        return tolmezha_shutdown(room, length);
    }
}

/* With the fields among other memory, all of which must be kept. */
static int32_t called(const struct asked *asked, uint8_t *room, uint64_t length, uint8_t byte)
{
    uint32_t lent[BESIDE + FIELDS + BESIDE];
    if (asked->form == TAKEN)
        return tolmezha_taken(asked->code, room, length);
    if (asked->form == FAILED)
        return tolmezha_failed(asked->code, asked->numbers[0], room, length);
    fill(lent, sizeof lent, byte);
    for (uint32_t i = 0; i < FIELDS; i++)
        lent[BESIDE + i] = asked->numbers[i];
    int32_t count = command(asked, lent + BESIDE, room, length);
    for (uint32_t i = 0; i < FIELDS; i++)
        if (lent[BESIDE + i] != asked->numbers[i])
            complain("the fields were changed");
    if (!filled_but(lent, sizeof lent, BESIDE * WORD, FIELDS * WORD, byte))
        complain("something was changed beside the fields");
    return count;
}

/* One call: the bytes that it built go to `bytes`, and all around them must be kept. */
static int32_t built(const struct asked *asked, uint64_t length, uint32_t turn, uint8_t *bytes)
{
    static uint8_t lent[GUARD + LARGE + GUARD];
    fill(lent, sizeof lent, FILLS[turn]);
    int32_t count = called(asked, lent + GUARD + turn, length, FILLS[turn]);
    uint64_t made = count > 0 ? (uint64_t)count : 0;
    if (made > length) {
        complain("more bytes were built than the room has");
        made = length;
    }
    if (!filled_but(lent, sizeof lent, GUARD + turn, made, FILLS[turn]))
        complain("something was changed beside the bytes that were built");
    copy(bytes, lent + GUARD + turn, made);
    return count;
}

/* In a room of this size the same is built both times. */
static void built_as(const struct asked *asked, uint64_t length, int32_t due, const uint8_t *bytes, const char *otherwise)
{
    uint8_t other[LARGE];
    for (uint32_t turn = 0; turn < 2; turn++)
        if (built(asked, length, turn, other) != due || !same(bytes, other, due > 0 ? (uint64_t)due : 0))
            complain(otherwise);
}

int32_t build(const struct asked *asked, uint8_t bytes[LARGE])
{
    int32_t count = built(asked, TOLMEZHA_ROOM, 0, bytes);
    if (count != TOLMEZHA_OUTSIDE && !(count > 0 && count <= TOLMEZHA_ROOM)) {
        complain("neither a length nor the refusal of a number");
        return count;
    }
    int32_t due = count > 0 ? TOLMEZHA_SMALL : TOLMEZHA_OUTSIDE;
    built_as(asked, TOLMEZHA_ROOM, count, bytes, "what lay in the room before shows in what was built");
    built_as(asked, LARGE, count, bytes, "something else was built into a larger room");
    built_as(asked, TOLMEZHA_ROOM - 1, due, bytes, "a room of 24 bytes was not refused by the right number");
    built_as(asked, 0, due, bytes, "a room of no bytes was not refused by the right number");
    return count;
}

/* ---- reading */

/* How many values an answer of a kind sets. */
static uint32_t set_by(int32_t kind)
{
    switch (kind) {
    case TOLMEZHA_WRONG:
    case TOLMEZHA_DONE:
    case TOLMEZHA_BLOCK:
        return 0;
    case TOLMEZHA_ERROR:
        return 1;
    case TOLMEZHA_STATUS:
        return TOLMEZHA_VALUES;
    case TOLMEZHA_VALUE:
        return 2;
    default:
        complain("a kind that is none");
        return 0;
    }
}

/* The first ones of the values that were lent, and all else there is kept. */
static void take(const int64_t lent[BESIDE + TOLMEZHA_VALUES + BESIDE], uint32_t set, uint8_t byte, int64_t *values)
{
    if (!filled_but(lent, (BESIDE + TOLMEZHA_VALUES + BESIDE) * WIDE, BESIDE * WIDE, set * WIDE, byte))
        complain("values were changed that the kind doesn't set");
    for (uint32_t i = 0; i < set; i++)
        values[i] = lent[BESIDE + i];
}

static int alike(const struct meaning *one, const struct meaning *other)
{
    for (uint32_t i = 0; i < TOLMEZHA_VALUES; i++)
        if (one->values[i] != other->values[i])
            return 0;
    return one->kind == other->kind;
}

/* tolmezha_block: bytes 2 to 257 of an answer, or as many of them as there are. */
static void block_of(const uint8_t *answer, uint64_t length, uint32_t turn)
{
    static uint8_t lent[GUARD + BLOCK + GUARD];
    uint64_t due = length < 2 ? 0 : length - 2 < BLOCK ? length - 2 : BLOCK;
    fill(lent, sizeof lent, FILLS[turn]);
    if (tolmezha_block(laid(answer, length, turn), length, lent + GUARD + turn) != (int32_t)due)
        complain("tolmezha_block returned another number of bytes");
    look(answer, length, turn);
    if (!same(lent + GUARD + turn, answer + 2, due))
        complain("tolmezha_block copied other bytes");
    if (!filled_but(lent, sizeof lent, GUARD + turn, due, FILLS[turn]))
        complain("tolmezha_block changed something else");
}

void read_as(uint32_t code, const uint8_t *answer, uint64_t length, struct meaning *meaning)
{
    struct meaning two[2] = {{0, {0}}, {0, {0}}};
    for (uint32_t turn = 0; turn < 2; turn++) {
        int64_t values[BESIDE + TOLMEZHA_VALUES + BESIDE];
        fill(values, sizeof values, FILLS[turn]);
        two[turn].kind = tolmezha_read(code, laid(answer, length, turn), length, values + BESIDE);
        look(answer, length, turn);
        take(values, set_by(two[turn].kind), FILLS[turn], two[turn].values);
        block_of(answer, length, turn);
    }
    if (!alike(&two[0], &two[1]))
        complain("an answer was read twice, and otherwise");
    *meaning = two[0];
}

/* ---- sending */

static int32_t begun(uint32_t code, uint32_t turn, uint32_t state[2])
{
    uint32_t lent[BESIDE + 2 + BESIDE];
    fill(lent, sizeof lent, FILLS[turn]);
    int32_t said = tolmezha_sent(code, lent + BESIDE);
    if (!filled_but(lent, sizeof lent, BESIDE * WORD, said ? 0 : 2 * WORD, FILLS[turn]))
        complain("tolmezha_sent refused and changed the state, or changed something else");
    state[0] = lent[BESIDE];
    state[1] = lent[BESIDE + 1];
    return said;
}

void begin(uint32_t code, uint32_t state[2])
{
    for (uint32_t turn = 0; turn < 2; turn++) {
        if (begun(0x100, turn, state) != TOLMEZHA_OUTSIDE)
            complain("tolmezha_sent took a code of more than a byte");
        if (begun(code, turn, state) || state[0] != code || state[1] != SENDS)
            complain("tolmezha_sent refused a code, or left another state");
    }
}

/* One call, and what it left. A reply sets nothing that wasn't read. */
static int32_t stepped(uint32_t state[2], const struct reply *reply, uint32_t turn, struct meaning *meaning)
{
    uint32_t states[BESIDE + 2 + BESIDE];
    int32_t kinds[BESIDE + 1 + BESIDE], next;
    int64_t values[BESIDE + TOLMEZHA_VALUES + BESIDE];
    fill(states, sizeof states, FILLS[turn]);
    fill(kinds, sizeof kinds, FILLS[turn]);
    fill(values, sizeof values, FILLS[turn]);
    states[BESIDE] = state[0];
    states[BESIDE + 1] = state[1];
    const uint8_t *answer = laid(reply->bytes, reply->length, turn);
    if (reply->silent)
        next = tolmezha_silence(states + BESIDE);
    else
        next = tolmezha_reply(states + BESIDE, answer, reply->length, kinds + BESIDE, values + BESIDE);
    look(reply->bytes, reply->length, turn);
    meaning->kind = reply->silent || next == TOLMEZHA_IDLE ? UNREAD : kinds[BESIDE];
    if (!filled_but(kinds, sizeof kinds, BESIDE * WORD, meaning->kind == UNREAD ? 0 : WORD, FILLS[turn]))
        complain("the kind of a reply that was not read was changed, or something beside a kind");
    if (!filled_but(states, sizeof states, BESIDE * WORD, 2 * WORD, FILLS[turn]))
        complain("something was changed beside the state");
    take(values, meaning->kind == UNREAD ? 0 : set_by(meaning->kind), FILLS[turn], meaning->values);
    state[0] = states[BESIDE];
    state[1] = states[BESIDE + 1];
    return next;
}

int32_t step(uint32_t state[2], const struct reply *reply, struct meaning *meaning)
{
    uint32_t left[2][2] = {{state[0], state[1]}, {state[0], state[1]}};
    struct meaning two[2] = {{0, {0}}, {0, {0}}};
    int32_t next = stepped(left[0], reply, 0, &two[0]);
    if (stepped(left[1], reply, 1, &two[1]) != next || !alike(&two[0], &two[1]))
        complain("a reply was taken twice, and otherwise");
    if (two[0].kind != UNREAD) {
        read_as(state[0], reply->bytes, reply->length, meaning);
        if (!alike(&two[0], meaning))
            complain("tolmezha_reply read something else than tolmezha_read");
    }
    uint32_t over = next == TOLMEZHA_ENDED || next == TOLMEZHA_LOST;
    uint32_t code = over ? 0 : state[0], sends = over ? 0 : state[1] - (next == TOLMEZHA_AGAIN);
    for (uint32_t turn = 0; turn < 2; turn++)
        if (left[turn][0] != code || left[turn][1] != sends)
            complain("another state was left than goes with the step");
    state[0] = left[0][0];
    state[1] = left[0][1];
    return next;
}

static void no_states(const struct reply *reply)
{
    static const uint32_t none[][2] = {
        {0x91, 5}, {0x100, 4}, {0x191, 1}, {0x91, 0xFFFFFFFF}, {0xFFFFFFFF, 4}, {0x80000091, 2}, {0x91, 0},
    };
    for (uint32_t i = 0; i < sizeof none / sizeof none[0]; i++) {
        uint32_t state[2] = {none[i][0], none[i][1]};
        struct meaning meaning;
        if (step(state, reply, &meaning) != TOLMEZHA_IDLE)
            complain("a state that is none is not idle");
    }
}

/* It uses up a send, whichever that is; and where it is an answer, it is a wrong one. */
static void used_up(uint32_t code, const struct reply *reply, const char *otherwise)
{
    for (uint32_t sends = 1; sends <= SENDS; sends++) {
        uint32_t state[2] = {code, sends};
        struct meaning meaning = {TOLMEZHA_WRONG, {0}};
        if (step(state, reply, &meaning) != (sends > 1 ? TOLMEZHA_AGAIN : TOLMEZHA_LOST) || meaning.kind != TOLMEZHA_WRONG)
            complain(otherwise);
    }
}

void unshown(uint32_t code, const struct reply *reply)
{
    static const struct reply empty; /* an answer, and not a silence */
    no_states(reply);
    used_up(code, &empty, "an answer of no bytes is not wrong, or uses up no send");
    used_up(0x97, reply, "an answer to a code that is no command's is not wrong, or uses up no send");
}
