/* plain.c: the five calls as one writes them in C without a proof. It is the yardstick for the library's speed, so it does the same work
 * for the same answers and uses nothing that a compiler would not be trusted with. */
#define _DEFAULT_SOURCE /* htobe16 */

#include "plain.h"

#include <endian.h>
#include <stdbool.h>
#include <string.h>

/* ---- blocks ---- */

enum { FLAG_L = 0x80, FLAG_V = 0x40, FLAG_H = 0x20, FLAG_D = 0x10, FIRST_FLAGS = FLAG_V | FLAG_H | FLAG_D };

/* The first PDU takes nothing over: it has V, H and D. */
static inline bool begins_well(const uint8_t *block, size_t block_length)
{
    return block_length == 0 || (block[0] & FIRST_FLAGS) == FIRST_FLAGS;
}

/* Reads the PDU at offset `at`, which has `left` octets up to the block's end, and gives its length, or 0 if it is malformed. *message goes
 * from the message before it to its own. */
static inline size_t read_pdu(const uint8_t *pdu, size_t left, size_t at, sdt_found *message)
{
    if (left < 2)
        return 0;
    unsigned flags = pdu[0];
    size_t fields = 2;
    size_t size = (flags & 0x0F) << 8 | pdu[1];
    if (flags & FLAG_L) {
        if (left < 3)
            return 0;
        size = size << 8 | pdu[2];
        fields = 3;
    }
    if (flags & FLAG_V)
        message->vector = at + fields++;
    if (size < fields || size > left)
        return 0;
    if (flags & FLAG_D) {
        message->data = at + fields;
        message->length = size - fields;
    } else if (size > fields) {
        return 0;
    }
    return size;
}

/* Counts the PDUs from *at on. *at goes behind the last of them: to the block's end, or to the first malformed PDU. */
static inline size_t pass_pdus(const uint8_t *block, size_t block_length, size_t *at)
{
    sdt_found message;
    size_t size, count = 0;

    for (; *at < block_length && (size = read_pdu(block + *at, block_length - *at, *at, &message)) > 0; *at += size)
        count++;
    return count;
}

sdt_block_answer plain_read_block(const uint8_t *block, size_t block_length, uint32_t position)
{
    if (block_length > SDT_MAX_BLOCK)
        return (sdt_block_answer){.outcome = SDT_WRONG_SIZE};
    if (!begins_well(block, block_length))
        return (sdt_block_answer){.outcome = SDT_MALFORMED};

    sdt_found message = {0};
    size_t at = 0;
    do {
        if (at == block_length)
            return (sdt_block_answer){.outcome = SDT_FEWER};
        size_t size = read_pdu(block + at, block_length - at, at, &message);
        if (size == 0)
            return (sdt_block_answer){.outcome = SDT_MALFORMED, .bad = at};
        at += size;
    } while (position-- > 0);

    pass_pdus(block, block_length, &at);
    if (at < block_length)
        return (sdt_block_answer){.outcome = SDT_MALFORMED, .bad = at};
    return (sdt_block_answer){.outcome = SDT_OK, .found = message};
}

sdt_open_answer plain_open_block(const uint8_t *block, size_t block_length)
{
    if (block_length > SDT_MAX_BLOCK)
        return (sdt_open_answer){.outcome = SDT_WRONG_SIZE};
    if (!begins_well(block, block_length))
        return (sdt_open_answer){.outcome = SDT_MALFORMED};

    size_t at = 0;
    size_t count = pass_pdus(block, block_length, &at);
    if (at < block_length)
        return (sdt_open_answer){.outcome = SDT_MALFORMED, .bad = at};
    return (sdt_open_answer){.outcome = SDT_OK, .count = count};
}

/* Whether a cursor may be one of a block of this length. Behind the start, the message before it lies before it. */
static bool may_be_of(size_t block_length, const sdt_cursor *cursor)
{
    if (block_length > SDT_MAX_BLOCK || cursor->next > block_length)
        return false;
    if (cursor->next == 0)
        return true;
    const sdt_found *before = &cursor->before;
    return before->vector < cursor->next && before->data <= cursor->next && before->length <= cursor->next - before->data;
}

sdt_next_answer plain_next_message(const uint8_t *block, size_t block_length, sdt_cursor cursor)
{
    size_t at = cursor.next;

    if (!may_be_of(block_length, &cursor))
        return (sdt_next_answer){.outcome = SDT_ASTRAY, .cursor = cursor};
    if (at == block_length)
        return (sdt_next_answer){.outcome = SDT_FEWER, .cursor = cursor};
    if (at == 0 && !begins_well(block, block_length))
        return (sdt_next_answer){.outcome = SDT_ASTRAY, .cursor = cursor};

    sdt_found message = cursor.before;
    size_t size = read_pdu(block + at, block_length - at, at, &message);
    if (size == 0)
        return (sdt_next_answer){.outcome = SDT_ASTRAY, .cursor = cursor};
    return (sdt_next_answer){.outcome = SDT_OK, .found = message, .cursor = {.next = at + size, .before = message}};
}

/* ---- reading a message ---- */

enum {
    WRAPPER_LENGTH = SDT_WRAPPER_FIELDS,
    JOIN_FIXED_LENGTH = 30,
    JOIN_NULL_LENGTH = 40,
    JOIN_IPV4_LENGTH = 46,
    ACCEPT_LENGTH = 26,
    REFUSE_LENGTH = 25, /* of a Leaving too */
    NAK_LENGTH = 32,
    GET_SESSIONS_LENGTH = 16,
    ACK_LENGTH = 4
};

static inline uint16_t get16(const uint8_t *at)
{
    return (uint16_t)(at[0] << 8 | at[1]);
}

static inline uint32_t get32(const uint8_t *at)
{
    return (uint32_t)get16(at) << 16 | get16(at + 2);
}

static inline uint64_t get64(const uint8_t *at)
{
    return (uint64_t)get32(at) << 32 | get32(at + 4);
}

static inline sdt_cid get_cid(const uint8_t *at)
{
    return (sdt_cid){.high = get64(at), .low = get64(at + 8)};
}

static const sdt_message_answer unreadable = {.outcome = SDT_UNREADABLE};

/* The 24 octets with which Join Accept, Join Refuse, Leaving and NAK begin. */
static inline sdt_message_answer read_member(uint8_t vector, const uint8_t *data)
{
    sdt_message_answer answer = {.message.vector = vector};

    answer.message.subject.cid = get_cid(data);
    answer.message.subject.channel = get16(data + 16);
    answer.message.subject.mid = get16(data + 18);
    answer.message.subject.reliable = get32(data + 20);
    return answer;
}

static inline sdt_message_answer read_wrapper(uint8_t vector, const uint8_t *data)
{
    sdt_message_answer answer = {.message.vector = vector};

    answer.message.subject.channel = get16(data);
    answer.message.order.total = get32(data + 2);
    answer.message.subject.reliable = get32(data + 6);
    answer.message.order.oldest = get32(data + 10);
    answer.message.order.first = get16(data + 14);
    answer.message.order.last = get16(data + 16);
    answer.message.order.threshold = get16(data + 18);
    return answer;
}

/* A Join with a null or an IPv4 address has one length; with another address type 31 octets are enough. */
static inline bool is_join_length(const uint8_t *data, size_t length)
{
    if (length <= JOIN_FIXED_LENGTH)
        return false;
    if (data[30] == SDT_ADDRESS_NULL)
        return length == JOIN_NULL_LENGTH;
    return data[30] != SDT_ADDRESS_IPV4 || length == JOIN_IPV4_LENGTH;
}

static inline sdt_message_answer read_join(const uint8_t *data)
{
    sdt_message_answer answer = {.message.vector = SDT_JOIN};
    const uint8_t *parameters = data + 31;

    answer.message.subject.cid = get_cid(data);
    answer.message.subject.mid = get16(data + 16);
    answer.message.subject.channel = get16(data + 18);
    answer.message.reciprocal = get16(data + 20);
    answer.message.order.total = get32(data + 22);
    answer.message.subject.reliable = get32(data + 26);
    answer.message.destination.type = data[30];
    if (data[30] > SDT_ADDRESS_IPV4)
        return answer;
    if (data[30] == SDT_ADDRESS_IPV4) {
        answer.message.destination.port = get16(data + 31);
        answer.message.destination.host = get32(data + 33);
        parameters = data + 37;
    }
    answer.message.parameters.expiry = parameters[0];
    answer.message.parameters.flags = parameters[1];
    answer.message.parameters.holdoff = get16(parameters + 2);
    answer.message.parameters.modulus = get16(parameters + 4);
    answer.message.parameters.maxwait = get16(parameters + 6);
    answer.message.parameters.adhoc = parameters[8];
    return answer;
}

sdt_message_answer plain_read_message(uint8_t vector, const uint8_t *data, size_t data_length)
{
    sdt_message_answer answer;

    switch (vector) {
    case SDT_RELIABLE_WRAPPER:
    case SDT_UNRELIABLE_WRAPPER:
        return data_length < WRAPPER_LENGTH ? unreadable : read_wrapper(vector, data);
    case SDT_JOIN:
        return is_join_length(data, data_length) ? read_join(data) : unreadable;
    case SDT_JOIN_REFUSE:
    case SDT_LEAVING:
        if (data_length != REFUSE_LENGTH)
            return unreadable;
        answer = read_member(vector, data);
        answer.message.reason = data[24];
        return answer;
    case SDT_JOIN_ACCEPT:
        if (data_length != ACCEPT_LENGTH)
            return unreadable;
        answer = read_member(vector, data);
        answer.message.reciprocal = get16(data + 24);
        return answer;
    case SDT_NAK:
        if (data_length != NAK_LENGTH)
            return unreadable;
        answer = read_member(vector, data);
        answer.message.missed.first = get32(data + 24);
        answer.message.missed.last = get32(data + 28);
        return answer;
    case SDT_ACK:
        if (data_length != ACK_LENGTH)
            return unreadable;
        return (sdt_message_answer){.message = {.vector = vector, .subject.reliable = get32(data)}};
    case SDT_GET_SESSIONS:
        if (data_length != GET_SESSIONS_LENGTH)
            return unreadable;
        return (sdt_message_answer){.message = {.vector = vector, .subject.cid = get_cid(data)}};
    default:
        return unreadable;
    }
}

/* ---- writing a message ---- */

enum { HEAD_LENGTH = 3, HEAD_FLAGS = FIRST_FLAGS << 8 };

static inline uint8_t *put8(uint8_t *at, uint8_t n)
{
    at[0] = n;
    return at + 1;
}

static inline uint8_t *put16(uint8_t *at, uint16_t n)
{
    n = htobe16(n);
    memcpy(at, &n, 2);
    return at + 2;
}

static inline uint8_t *put32(uint8_t *at, uint32_t n)
{
    n = htobe32(n);
    memcpy(at, &n, 4);
    return at + 4;
}

static inline uint8_t *put64(uint8_t *at, uint64_t n)
{
    n = htobe64(n);
    memcpy(at, &n, 8);
    return at + 8;
}

static inline uint8_t *put_cid(uint8_t *at, sdt_cid cid)
{
    return put64(put64(at, cid.high), cid.low);
}

static uint8_t *put_member(uint8_t *at, const sdt_message *m)
{
    at = put_cid(at, m->subject.cid);
    at = put16(at, m->subject.channel);
    at = put16(at, m->subject.mid);
    return put32(at, m->subject.reliable);
}

static uint8_t *put_wrapper(uint8_t *at, const sdt_message *m)
{
    at = put16(at, m->subject.channel);
    at = put32(at, m->order.total);
    at = put32(at, m->subject.reliable);
    at = put32(at, m->order.oldest);
    at = put16(at, m->order.first);
    at = put16(at, m->order.last);
    return put16(at, m->order.threshold);
}

static uint8_t *put_join(uint8_t *at, const sdt_message *m)
{
    at = put_cid(at, m->subject.cid);
    at = put16(at, m->subject.mid);
    at = put16(at, m->subject.channel);
    at = put16(at, m->reciprocal);
    at = put32(at, m->order.total);
    at = put32(at, m->subject.reliable);
    at = put8(at, m->destination.type);
    if (m->destination.type == SDT_ADDRESS_IPV4) {
        at = put16(at, m->destination.port);
        at = put32(at, m->destination.host);
    }
    at = put8(at, m->parameters.expiry);
    at = put8(at, m->parameters.flags);
    at = put16(at, m->parameters.holdoff);
    at = put16(at, m->parameters.modulus);
    at = put16(at, m->parameters.maxwait);
    return put8(at, m->parameters.adhoc);
}

/* The message's own data, without contents; its vector is one of the nine. Gives the place behind them. */
static uint8_t *put_message(uint8_t *at, const sdt_message *m)
{
    switch (m->vector) {
    case SDT_RELIABLE_WRAPPER:
    case SDT_UNRELIABLE_WRAPPER:
        return put_wrapper(at, m);
    case SDT_JOIN:
        return put_join(at, m);
    case SDT_JOIN_REFUSE:
    case SDT_LEAVING:
        return put8(put_member(at, m), m->reason);
    case SDT_JOIN_ACCEPT:
        return put16(put_member(at, m), m->reciprocal);
    case SDT_NAK:
        return put32(put32(put_member(at, m), m->missed.first), m->missed.last);
    case SDT_ACK:
        return put32(at, m->subject.reliable);
    default:
        return put_cid(at, m->subject.cid);
    }
}

/* The length of a message's own data; 0 if it has no written form. */
static size_t own_length(const sdt_message *m)
{
    switch (m->vector) {
    case SDT_RELIABLE_WRAPPER:
    case SDT_UNRELIABLE_WRAPPER:
        return WRAPPER_LENGTH;
    case SDT_JOIN:
        if (m->destination.type == SDT_ADDRESS_NULL)
            return JOIN_NULL_LENGTH;
        return m->destination.type == SDT_ADDRESS_IPV4 ? JOIN_IPV4_LENGTH : 0;
    case SDT_JOIN_REFUSE:
    case SDT_LEAVING:
        return REFUSE_LENGTH;
    case SDT_JOIN_ACCEPT:
        return ACCEPT_LENGTH;
    case SDT_NAK:
        return NAK_LENGTH;
    case SDT_ACK:
        return ACK_LENGTH;
    case SDT_GET_SESSIONS:
        return GET_SESSIONS_LENGTH;
    default:
        return 0;
    }
}

sdt_write_answer plain_write_message(sdt_message message, const uint8_t *contents, size_t contents_length, uint8_t *room, size_t room_length)
{
    size_t own = own_length(&message);
    if (own == 0)
        return (sdt_write_answer){.outcome = SDT_UNREADABLE};

    bool wraps = message.vector == SDT_RELIABLE_WRAPPER || message.vector == SDT_UNRELIABLE_WRAPPER;
    size_t carried = wraps ? contents_length : 0;
    size_t before = HEAD_LENGTH + own;
    if (room_length < before || room_length - before < carried)
        return (sdt_write_answer){.outcome = SDT_WRONG_SIZE};
    if (carried > SDT_MAX_CONTENTS)
        return (sdt_write_answer){.outcome = SDT_CONTENTS_OVER};

    uint8_t *at = put16(room, (uint16_t)(HEAD_FLAGS | (before + carried)));
    at = put_message(put8(at, message.vector), &message);
    if (carried > 0)
        memcpy(at, contents, carried);
    return (sdt_write_answer){.outcome = SDT_OK, .length = before + carried};
}
