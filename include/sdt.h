/* sdt.h: reading and writing messages of ANSI E1.17 SDT (Session Data Transport), for the member side.
 *
 * The archive that belongs to this header, libsdt.a, is machine code for x86-64 with the System V calling convention, as on Linux.
 *
 * What is promised of every function here, for every input:
 *  - It returns. It reads only the octets that you lend it, and writes only the room that you lend it.
 *  - Nothing is kept between calls, allocated or printed. Calls from several threads do not disturb each other.
 *  - The same arguments give the same answer.
 *  - A refusal changes nothing that you lent.
 * That it returns, what it reads and writes, what each answer is and that a refusal changes nothing are proved of the library's source; README.md
 * says what the proofs rest on. The library has no global variables and calls no outside function, so nothing is kept, allocated or printed, and
 * calls from several threads do not meet.
 *
 * What the caller owes, since C cannot check it:
 *  - A pointer to octets points to as many as the length behind it says, and those of `room` are writable. No alignment is needed. If the
 *    length is 0, the pointer is not dereferenced, so it may be NULL.
 *  - `room` overlaps no other argument.
 *
 * An answer is a struct whose first field, `outcome`, is one of the outcomes below. Unless its comment says otherwise, a field that belongs
 * to another outcome is 0. Offsets count from the first octet of the block, which has offset 0.
 */
#ifndef SDT_H
#define SDT_H

#include <stddef.h>
#include <stdint.h>

#ifdef __cplusplus
extern "C" {
#endif

/* ---- outcomes: 0, the refusal numbers, and two that are no refusals ---- */

#define SDT_OK 0u             /* there is a message; the block is open; the message was written */
#define SDT_WRONG_SIZE 1u     /* refused: a block over SDT_MAX_BLOCK octets, or a room shorter than the message */
#define SDT_UNREADABLE 4u     /* refused: no message of ours, or its data has a length or an address form that it cannot have */
#define SDT_CONTENTS_OVER 7u  /* refused: wrapper contents over SDT_MAX_CONTENTS octets */
#define SDT_MALFORMED 11u     /* refused: a PDU of the block is malformed; `bad` is the offset where the first such PDU begins */
#define SDT_FEWER 100u        /* the block has fewer messages, or no further one */
#define SDT_ASTRAY 101u       /* the cursor cannot be one of this block's */

/* ---- sizes ---- */

#define SDT_MAX_BLOCK 65535u    /* octets of a block */
#define SDT_MAX_CONTENTS 1454u  /* octets of a wrapper's contents */
#define SDT_MAX_MESSAGE 1477u   /* octets of the longest message that is written: a wrapper with all contents */
#define SDT_WRAPPER_FIELDS 20u  /* octets of a wrapper's own fields: its contents are the data from this offset of the data on */

/* ---- reading a block ---- */

/* A message within a block, by offsets. In every answer with SDT_OK, vector < block_length and data + length <= block_length.
 * Several messages of a block may share octets: a PDU with flag V clear has the vector of the PDU before it, and one with D clear its data. */
typedef struct {
    size_t vector; /* the offset of its vector, which is one octet */
    size_t data;   /* the offset of its data */
    size_t length; /* how many octets of data it has; 0 is possible */
} sdt_found;

typedef struct {
    uint32_t outcome; /* SDT_OK, SDT_FEWER, SDT_WRONG_SIZE or SDT_MALFORMED */
    sdt_found found;  /* with SDT_OK: the message */
    size_t bad;       /* with SDT_MALFORMED: the offset where the first malformed PDU begins; bad < block_length */
} sdt_block_answer;

/* The message at `position` of a block, counted from 0. Every PDU of the block is checked, whichever message is asked for, so a block with
 * a malformed PDU anywhere is refused. To read all messages of a block, use sdt_open_block and sdt_next_message: this call passes over the
 * whole block each time. */
sdt_block_answer sdt_read_block(const uint8_t *block, size_t block_length, uint32_t position);

/* Where reading a block goes on. Take it from an answer and hand it back as it is. */
typedef struct {
    size_t next;      /* the offset of the next PDU; next <= block_length */
    sdt_found before; /* the message before that PDU, from which it may take its vector or its data */
} sdt_cursor;

typedef struct {
    uint32_t outcome;  /* SDT_OK, SDT_WRONG_SIZE or SDT_MALFORMED */
    size_t count;      /* with SDT_OK: how many messages the block has; 0 is possible */
    sdt_cursor cursor; /* with SDT_OK: the cursor before the first message */
    size_t bad;        /* with SDT_MALFORMED: the offset where the first malformed PDU begins; bad < block_length */
} sdt_open_answer;

/* Checks every PDU of a block once, and counts its messages. */
sdt_open_answer sdt_open_block(const uint8_t *block, size_t block_length);

typedef struct {
    uint32_t outcome;  /* SDT_OK, SDT_FEWER or SDT_ASTRAY */
    sdt_found found;   /* with SDT_OK: the message */
    sdt_cursor cursor; /* with SDT_OK: the cursor behind that message; with any other outcome: the cursor that was given */
} sdt_next_answer;

/* The message behind a cursor. From the cursor of sdt_open_block on, the calls give what sdt_read_block gives for positions 0, 1, 2, ..
 * of the same block, at the cost of one pass. Any cursor is safe. One that cannot belong to this block is answered SDT_ASTRAY: its `next` is
 * past the end, or its `before` does not lie before `next`, or no well-formed PDU begins at `next`, or the block is over SDT_MAX_BLOCK
 * octets. Any other cursor is taken at its word, and what is answered still lies inside the block. With every SDT_OK the cursor moves on,
 * so a loop over it ends. */
sdt_next_answer sdt_next_message(const uint8_t *block, size_t block_length, sdt_cursor cursor);

/* ---- messages ---- */

/* Vectors: which message it is. */
#define SDT_RELIABLE_WRAPPER 1u
#define SDT_UNRELIABLE_WRAPPER 2u
#define SDT_JOIN 4u
#define SDT_JOIN_REFUSE 5u
#define SDT_JOIN_ACCEPT 6u
#define SDT_LEAVING 8u
#define SDT_ACK 14u
#define SDT_NAK 15u
#define SDT_GET_SESSIONS 16u

/* Address types of a Join. */
#define SDT_ADDRESS_NULL 0u
#define SDT_ADDRESS_IPV4 1u

/* A component identifier: its 16 octets as two numbers, the first octet the most significant of `high`. */
typedef struct {
    uint64_t high;
    uint64_t low;
} sdt_cid;

/* Any message. `vector` says which; the table shows what each field holds. When a message is read, a field without an entry is 0; when it
 * is written, such a field is not looked at.
 *
 *                       | Wrappers | Join | Join Accept | Join Refuse, Leaving | NAK | ACK | Get Sessions
 *   subject.cid         |          | (1)  | leader      | leader               | (2) |     | (1)
 *   subject.channel     | yes      | yes  | yes         | yes                  | yes |     |
 *   subject.mid         |          | yes  | yes         | yes                  | yes |     |
 *   subject.reliable    | yes      | yes  | yes         | yes                  | yes | yes |
 *   reciprocal          |          | yes  | yes         |                      |     |     |
 *   reason              |          |      |             | yes                  |     |     |
 *   missed              |          |      |             |                      | yes |     |
 *   order.total         | yes      | yes  |             |                      |     |     |
 *   order, the rest     | yes      |      |             |                      |     |     |
 *   destination.type    |          | yes  |             |                      |     |     |
 *   destination, rest   |          | (3)  |             |                      |     |     |
 *   parameters          |          | (4)  |             |                      |     |     |
 *
 * (1) the component that is asked; (2) the channel's owner, as the leader in the others; (3) with SDT_ADDRESS_IPV4;
 * (4) with SDT_ADDRESS_NULL and SDT_ADDRESS_IPV4: of a Join with another address type only the type is known. */
typedef struct {
    uint8_t vector;
    uint8_t reason;
    uint16_t reciprocal; /* the reciprocal channel */
    struct {
        uint32_t first; /* the first and the last missed reliable number */
        uint32_t last;
    } missed;
    struct {
        sdt_cid cid;
        uint32_t reliable; /* the reliable sequence number */
        uint16_t channel;
        uint16_t mid;
    } subject;
    struct {
        uint32_t total;     /* the total sequence number */
        uint32_t oldest;    /* the oldest available wrapper */
        uint16_t first;     /* the first and the last member to acknowledge */
        uint16_t last;
        uint16_t threshold; /* the MAK threshold */
    } order;
    struct {
        uint32_t host; /* the IPv4 address, its first octet the most significant */
        uint16_t port;
        uint8_t type;
    } destination;
    struct {
        uint8_t expiry;   /* seconds */
        uint8_t flags;    /* bit 7 is N, NAKs go outbound too; the others are reserved */
        uint16_t holdoff; /* milliseconds */
        uint16_t modulus;
        uint16_t maxwait; /* milliseconds */
        uint8_t adhoc;    /* the ad-hoc expiry, seconds */
    } parameters;
} sdt_message;

typedef struct {
    uint32_t outcome;    /* SDT_OK or SDT_UNREADABLE */
    sdt_message message; /* with SDT_OK: the message; with SDT_UNREADABLE every field is 0 */
} sdt_message_answer;

/* Reads a message from its vector and data, as sdt_read_block finds them: sdt_read_message(block[f.vector], block + f.data, f.length).
 * Of a Join with an address type other than null and IPv4 only the first 31 octets are looked at. A wrapper's contents are not copied: they
 * are the data from offset SDT_WRAPPER_FIELDS of the data on. */
sdt_message_answer sdt_read_message(uint8_t vector, const uint8_t *data, size_t data_length);

typedef struct {
    uint32_t outcome; /* SDT_OK, or a refusal, checked in this order: SDT_UNREADABLE, SDT_WRONG_SIZE, SDT_CONTENTS_OVER */
    size_t length;    /* with SDT_OK: how many octets were written */
} sdt_write_answer;

/* Writes a message as one PDU at the front of `room`. `contents` are those of a wrapper; with any other message they are not looked at.
 * A vector that is none of the nine, or a Join with an address type other than null and IPv4, has no written form: SDT_UNREADABLE.
 * Octets of `room` behind the written length stay as they were, and after a refusal all of them do. */
sdt_write_answer sdt_write_message(sdt_message message, const uint8_t *contents, size_t contents_length, uint8_t *room, size_t room_length);

#ifdef __cplusplus
}
#endif

#endif
