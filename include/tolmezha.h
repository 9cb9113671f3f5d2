/* The aircraft's half of a survey pod's packets, for C and C++. Made of crates/tolmezha by tests/library/header.py.

   Proved of each function, for every argument: it does what its contract says (crates/tolmezha/src/lib.rt), in short
   the words above it, reads and writes nothing but what it is lent, and always returns. The caller sees to the rest:
   each pointer is to the caller's memory of the stated length, or of the number in brackets, aligned as its type asks,
   never NULL, and changed by nobody else during the call; what a function writes overlaps nothing else that it is
   lent. Lengths have 64 bits on every processor. The bounds of fields and parameters stand in vectors.txt. */
#ifndef TOLMEZHA_H
#define TOLMEZHA_H

#include <stdint.h>

#ifdef __cplusplus
extern "C" {
#endif

/* What a function returns that refuses. */
#define TOLMEZHA_OUTSIDE (-20) /* a field, an id, a value, a code or an error byte is outside its bounds */
#define TOLMEZHA_WRONG (-23) /* the answer is wrong for its command */
#define TOLMEZHA_SMALL (-24) /* the room has fewer than 25 bytes */

/* The room that holds every command and acknowledgement, in bytes. */
#define TOLMEZHA_ROOM 25

/* The places of the nine fields. */
#define TOLMEZHA_MODE 0
#define TOLMEZHA_FLAGS 1
#define TOLMEZHA_SECONDS 2
#define TOLMEZHA_MILLISECONDS 3
#define TOLMEZHA_PRIORITY_LIMIT 4
#define TOLMEZHA_PRIORITY_REMAINING 5
#define TOLMEZHA_MEMORY_LIMIT 6
#define TOLMEZHA_MEMORY_REMAINING 7
#define TOLMEZHA_POLL 8

/* The longest answer, in bytes; and how many values there are. */
#define TOLMEZHA_ANSWER 260
#define TOLMEZHA_VALUES 13

/* The kinds of answers. Behind each: which of its values are set, in their order. */
#define TOLMEZHA_DONE 0 /* none */
#define TOLMEZHA_ERROR 1 /* the error byte */
#define TOLMEZHA_STATUS 2 /* mode, flags, priority blocks waiting, ordinary blocks waiting, request, eight ids */
#define TOLMEZHA_VALUE 3 /* the parameter's id, its value */
#define TOLMEZHA_BLOCK 4 /* none: the 256 bytes are in the answer, and tolmezha_block copies them */

/* The places of a status among the values. */
#define TOLMEZHA_STATUS_MODE 0
#define TOLMEZHA_STATUS_FLAGS 1
#define TOLMEZHA_STATUS_PRIORITY 2 /* priority blocks waiting */
#define TOLMEZHA_STATUS_ORDINARY 3 /* ordinary blocks waiting */
#define TOLMEZHA_STATUS_REQUEST 4
#define TOLMEZHA_STATUS_IDS 5 /* the first of eight */

/* The steps of a sending. */
#define TOLMEZHA_IDLE 0 /* nothing was on its way */
#define TOLMEZHA_ENDED 1 /* the command was answered, be it with an error */
#define TOLMEZHA_AGAIN 2 /* send the same bytes again */
#define TOLMEZHA_LOST 3 /* the pod is lost */

/* The CRC of some bytes, 0 to 0xFFFF. A message with its CRC behind it, high byte first, has the CRC 0. */
uint32_t tolmezha_crc(const uint8_t *bytes, uint64_t bytes_length);

/* Builds an Initialise of the nine fields from the start of the room on, and keeps the rest of the room. Returns how
   many bytes it built; TOLMEZHA_OUTSIDE where a field is outside its bounds, else TOLMEZHA_SMALL where the room is too
   small, and keeps the whole room then. */
int32_t tolmezha_initialise(const uint32_t fields[9], uint8_t *room, uint64_t room_length);

/* Builds an Update of the nine fields, and returns and keeps what tolmezha_initialise does. */
int32_t tolmezha_update(const uint32_t fields[9], uint8_t *room, uint64_t room_length);

/* Builds a Status. Returns how many bytes it built from the start of the room on; TOLMEZHA_SMALL where the room is too
   small. Keeps the rest of the room, or the whole of it. */
int32_t tolmezha_status(uint8_t *room, uint64_t room_length);

/* Builds a Parameter write, and returns and keeps what tolmezha_initialise does. TOLMEZHA_OUTSIDE: the id is not 1 to
   12, or the value is outside that parameter's bounds. That parameter 1 stays below parameter 2 only the pod
   judges. */
int32_t tolmezha_parameter_write(uint32_t id, int32_t value, uint8_t *room, uint64_t room_length);

/* Builds a Parameter read, and returns and keeps what tolmezha_initialise does. TOLMEZHA_OUTSIDE: the id is not 1 to
   12. */
int32_t tolmezha_parameter_read(uint32_t id, uint8_t *room, uint64_t room_length);

/* Builds a Priority data, which asks for the oldest priority block, and returns and keeps what tolmezha_status
   does. */
int32_t tolmezha_priority_data(uint8_t *room, uint64_t room_length);

/* Builds a Data, which asks for the oldest ordinary block, and returns and keeps what tolmezha_status does. */
int32_t tolmezha_data(uint8_t *room, uint64_t room_length);

/* Builds a Shutdown, and returns and keeps what tolmezha_status does. */
int32_t tolmezha_shutdown(uint8_t *room, uint64_t room_length);

/* Builds the acknowledgement of an answer that was received: the command's code, 0x01 and 0x7E. To that of a block the
   pod drops it. Returns and keeps what tolmezha_initialise does. TOLMEZHA_OUTSIDE: the code is not 0x90 to 0x9F. */
int32_t tolmezha_taken(uint32_t code, uint8_t *room, uint64_t room_length);

/* Builds the acknowledgement of an answer that was not: the command's code, 0x09 and an error byte of the caller's.
   The pod keeps the block then. Returns and keeps what tolmezha_initialise does. TOLMEZHA_OUTSIDE: the code is not
   0x90 to 0x9F, or the error byte is over 0xFF. */
int32_t tolmezha_failed(uint32_t code, uint32_t error, uint8_t *room, uint64_t room_length);

/* Reads an answer to the command of that code. Returns its kind and sets that kind's values from the first place on;
   TOLMEZHA_WRONG where the answer is wrong for the command, or the code is no command's. Keeps the values that it
   doesn't set. */
int32_t tolmezha_read(uint32_t code, const uint8_t *answer, uint64_t answer_length, int64_t values[13]);

/* Copies the block out of an answer of kind TOLMEZHA_BLOCK: bytes 2 to 257 of it. Returns how many bytes it copied,
   which is 256 for such an answer, and as many as there are for a shorter one; keeps the rest of the block. */
int32_t tolmezha_block(const uint8_t *answer, uint64_t answer_length, uint8_t block[256]);

/* A command of that code was sent for the first time: the state becomes the code, and 4. Returns 0; TOLMEZHA_OUTSIDE
   where the code is over 0xFF, and keeps the state then. The second number of a state is how many sends there are with
   the one under way, 1 to 4. With 0 or more than 4, or a code over 0xFF, nothing is on its way. */
int32_t tolmezha_sent(uint32_t code, uint32_t state[2]);

/* No reply came in time. Returns the step, TOLMEZHA_AGAIN three times and then TOLMEZHA_LOST, and leaves in the state
   what is on its way then. Where nothing is on its way the state is kept. */
int32_t tolmezha_silence(uint32_t state[2]);

/* An answer came. Returns the step and leaves in the state what is on its way then: a wrong answer and error 0x01 use
   up a send, as silence does, and any other is TOLMEZHA_ENDED. Sets kind to what tolmezha_read returns for it and the
   state's code, and the values as that does. Where nothing is on its way the answer is not read, and state, kind and
   values are kept. */
int32_t tolmezha_reply(uint32_t state[2], const uint8_t *answer, uint64_t answer_length, int32_t *kind,
    int64_t values[13]);

#ifdef __cplusplus
}
#endif

#endif
