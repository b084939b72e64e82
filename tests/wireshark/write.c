/* write.c: writes messages with the library, and says what an outside reader must find in them.
 *
 * A line for each message: its name, the fields as NAME=VALUE in the order of the layout, and its octets in hex. The names and the forms of
 * the values are those of Wireshark's ACN dissector, so that check.py can compare lists without knowing SDT. Two names are ours, for what
 * the dissector shows as no field of its own: `reserved`, the seven bits beside N, and `undissected`, a datagram of a protocol that it
 * does not know.
 */
#include <inttypes.h>
#include <stdarg.h>
#include <stdio.h>
#include <stdlib.h>

#include "sdt.h"

#define PROTOCOL_SDT 1u
#define PROTOCOL_UNKNOWN 0x99999999u /* no protocol's number: the dissector then leaves the datagram alone */
#define CLIENT_HEAD 10u              /* of a client block PDU: flags and length 2, MID 2, protocol 4, association 2 */

/* Octets, and the fields that a reader must find in them. */
typedef struct {
    uint8_t octets[SDT_MAX_MESSAGE];
    size_t length;
    char fields[1 << 16];
    size_t used;
} shown;

static void die(const char *why)
{
    fprintf(stderr, "wireshark: write: %s\n", why);
    exit(1);
}

static void clear(shown *s)
{
    s->length = 0;
    s->used = 0;
    s->fields[0] = '\0';
}

/* ---- octets that the library does not write ---- */

static void put(shown *s, uint64_t value, size_t octets)
{
    if (octets > sizeof s->octets - s->length)
        die("no room for octets");
    while (octets-- > 0)
        s->octets[s->length++] = (uint8_t)(value >> 8 * octets);
}

static void put_all(shown *s, const shown *from)
{
    for (size_t i = 0; i < from->length; i++)
        put(s, from->octets[i], 1);
}

/* ---- fields ---- */

__attribute__((format(printf, 2, 3))) static void say(shown *s, const char *format, ...)
{
    va_list values;
    va_start(values, format);
    int length = vsnprintf(s->fields + s->used, sizeof s->fields - s->used, format, values);
    va_end(values);
    if (length < 0 || (size_t)length >= sizeof s->fields - s->used)
        die("no room for fields");
    s->used += (size_t)length;
}

static void number(shown *s, const char *name, uint32_t value)
{
    say(s, " acn.%s=%" PRIu32, name, value);
}

static void cid(shown *s, sdt_cid c)
{
    say(s, " acn.cid=%08" PRIx64 "-%04" PRIx64 "-%04" PRIx64, c.high >> 32, c.high >> 16 & 0xffff, c.high & 0xffff);
    say(s, "-%04" PRIx64 "-%012" PRIx64, c.low >> 48, c.low & 0xffffffffffff);
}

/* Every PDU has the short length, and V, H and D set. */
static void head_fields(shown *s, size_t length)
{
    say(s, " acn.pdu.flag_l=0 acn.pdu.flag_v=1 acn.pdu.flag_h=1 acn.pdu.flag_d=1 acn.pdu.length=%zu", length);
}

static void wrapper_fields(shown *s, sdt_message m)
{
    number(s, "channel_number", m.subject.channel);
    number(s, "total_sequence_number", m.order.total);
    number(s, "reliable_sequence_number", m.subject.reliable);
    number(s, "oldest_available_wrapper", m.order.oldest);
    number(s, "first_member_to_ack", m.order.first);
    number(s, "last_member_to_ack", m.order.last);
    number(s, "mak_threshold", m.order.threshold);
}

static void address_fields(shown *s, sdt_message m)
{
    uint32_t host = m.destination.host;
    number(s, "ip_address_type", m.destination.type);
    if (m.destination.type == SDT_ADDRESS_NULL)
        return;
    number(s, "port", m.destination.port);
    say(s, " acn.ipv4=%" PRIu32 ".%" PRIu32 ".%" PRIu32 ".%" PRIu32, host >> 24, host >> 16 & 255, host >> 8 & 255, host & 255);
}

static void parameter_fields(shown *s, sdt_message m)
{
    number(s, "expiry", m.parameters.expiry);
    number(s, "nak_outbound_flag", m.parameters.flags >> 7);
    say(s, " reserved=%d", m.parameters.flags & 127);
    number(s, "nak_holdoff", m.parameters.holdoff);
    number(s, "nak_modulus", m.parameters.modulus);
    number(s, "nak_max_wait", m.parameters.maxwait);
}

static void join_fields(shown *s, sdt_message m)
{
    cid(s, m.subject.cid);
    number(s, "member_id", m.subject.mid);
    number(s, "channel_number", m.subject.channel);
    number(s, "reciprocal_channel", m.reciprocal);
    number(s, "total_sequence_number", m.order.total);
    number(s, "reliable_sequence_number", m.subject.reliable);
    address_fields(s, m);
    parameter_fields(s, m);
    number(s, "adhoc_expiry", m.parameters.adhoc);
}

static void missed_fields(shown *s, sdt_message m)
{
    number(s, "first_missed_sequence", m.missed.first);
    number(s, "last_missed_sequence", m.missed.last);
}

/* Of the four messages about one member: they differ in what ends them. */
static void member_fields(shown *s, sdt_message m)
{
    cid(s, m.subject.cid);
    number(s, "channel_number", m.subject.channel);
    number(s, "member_id", m.subject.mid);
    number(s, "reliable_sequence_number", m.subject.reliable);
    switch (m.vector) {
    case SDT_JOIN_REFUSE: number(s, "refuse_code", m.reason); break;
    case SDT_JOIN_ACCEPT: number(s, "reciprocal_channel", m.reciprocal); break;
    case SDT_LEAVING: number(s, "reason_code", m.reason); break;
    default: missed_fields(s, m); break;
    }
}

static void message_fields(shown *s, sdt_message m)
{
    number(s, "sdt_vector", m.vector);
    switch (m.vector) {
    case SDT_RELIABLE_WRAPPER:
    case SDT_UNRELIABLE_WRAPPER: wrapper_fields(s, m); break;
    case SDT_JOIN: join_fields(s, m); break;
    case SDT_ACK: number(s, "reliable_sequence_number", m.subject.reliable); break;
    case SDT_GET_SESSIONS: cid(s, m.subject.cid); break;
    default: member_fields(s, m); break;
    }
}

/* ---- PDUs ---- */

/* Behind what `s` has: a message, written by the library. */
static void add_message(shown *s, sdt_message m, const shown *contents)
{
    size_t room = sizeof s->octets - s->length;
    sdt_write_answer a = sdt_write_message(m, contents->octets, contents->length, s->octets + s->length, room);
    if (a.outcome != SDT_OK)
        die("the library refused to write a message");
    if (a.length > room)
        die("the library says that it wrote more than there is room for");
    s->length += a.length;
    head_fields(s, a.length);
    message_fields(s, m);
    say(s, "%s", contents->fields);
}

/* Behind what `s` has: a PDU of a client block, as wrappers carry them. */
static void add_client(shown *s, uint16_t mid, uint32_t protocol, uint16_t association, const shown *datagram)
{
    size_t length = CLIENT_HEAD + datagram->length;
    put(s, 0x7000 | length, 2);
    put(s, mid, 2);
    put(s, protocol, 4);
    put(s, association, 2);
    put_all(s, datagram);
    head_fields(s, length);
    number(s, "member_id", mid);
    number(s, "protocol_id", protocol);
    number(s, "association", association);
    say(s, "%s", datagram->fields);
}

/* ---- values ---- */

typedef enum { ZERO, ONE, TOP, FULL, MIXED, PATTERNS } pattern;

static const char *const pattern_names[PATTERNS] = {"zero", "one", "top", "full", "mixed"};

/* Numbers without a pattern, and the same in each run: a step of splitmix64. */
static uint64_t mixed(void)
{
    static uint64_t state;
    uint64_t z = state += 0x9e3779b97f4a7c15;
    z = (z ^ z >> 30) * 0xbf58476d1ce4e5b9;
    z = (z ^ z >> 27) * 0x94d049bb133111eb;
    return z ^ z >> 31;
}

static uint64_t value(pattern p, unsigned bits)
{
    switch (p) {
    case ONE: return 1;
    case TOP: return UINT64_C(1) << (bits - 1);
    case FULL: return UINT64_MAX >> (64 - bits);
    case MIXED: return mixed() >> (64 - bits);
    default: return 0;
    }
}

/* Fills the fields of every message, whichever this one is: what it does not have must not be written. */
static sdt_message filled(uint8_t vector, uint8_t type, pattern p)
{
    sdt_message m = {.vector = vector, .destination.type = type};
    m.reason = (uint8_t)value(p, 8);
    m.reciprocal = (uint16_t)value(p, 16);
    m.missed.first = (uint32_t)value(p, 32);
    m.missed.last = (uint32_t)value(p, 32);
    m.subject.cid.high = value(p, 64);
    m.subject.cid.low = value(p, 64);
    m.subject.reliable = (uint32_t)value(p, 32);
    m.subject.channel = (uint16_t)value(p, 16);
    m.subject.mid = (uint16_t)value(p, 16);
    m.order.total = (uint32_t)value(p, 32);
    m.order.oldest = (uint32_t)value(p, 32);
    m.order.first = (uint16_t)value(p, 16);
    m.order.last = (uint16_t)value(p, 16);
    m.order.threshold = (uint16_t)value(p, 16);
    m.destination.host = (uint32_t)value(p, 32);
    m.destination.port = (uint16_t)value(p, 16);
    m.parameters.expiry = (uint8_t)value(p, 8);
    m.parameters.flags = (uint8_t)value(p, 8);
    m.parameters.holdoff = (uint16_t)value(p, 16);
    m.parameters.modulus = (uint16_t)value(p, 16);
    m.parameters.maxwait = (uint16_t)value(p, 16);
    m.parameters.adhoc = (uint8_t)value(p, 8);
    return m;
}

/* ---- what is written ---- */

static const shown nothing;
static shown line, contents, datagram;

static void print_line(const char *name, const char *variant)
{
    printf("%s-%s%s ", name, variant, line.fields);
    for (size_t i = 0; i < line.length; i++)
        printf("%02x", line.octets[i]);
    putchar('\n');
}

static void print_alone(const char *name, uint8_t vector, uint8_t type)
{
    for (pattern p = ZERO; p < PATTERNS; p++) {
        clear(&line);
        add_message(&line, filled(vector, type, p), &nothing);
        print_line(name, pattern_names[p]);
    }
}

static void print_wrapped(const char *variant, uint8_t vector)
{
    const char *name = vector == SDT_RELIABLE_WRAPPER ? "reliable-wrapper" : "unreliable-wrapper";
    clear(&line);
    add_message(&line, filled(vector, 0, MIXED), &contents);
    print_line(name, variant);
}

/* An ACK is a wrapped message: the dissector looks at its number only in a client block. */
static void print_acks(void)
{
    for (pattern p = ZERO; p < PATTERNS; p++) {
        clear(&datagram);
        add_message(&datagram, filled(SDT_ACK, 0, p), &nothing);
        clear(&contents);
        add_client(&contents, (uint16_t)value(p, 16), PROTOCOL_SDT, (uint16_t)value(p, 16), &datagram);
        clear(&line);
        add_message(&line, filled(SDT_RELIABLE_WRAPPER, 0, MIXED), &contents);
        print_line("ack", pattern_names[p]);
    }
}

static void add_opaque_client(size_t length)
{
    clear(&datagram);
    while (datagram.length < length)
        put(&datagram, mixed(), 1);
    if (length > 0)
        say(&datagram, " undissected=");
    for (size_t i = 0; i < length; i++)
        say(&datagram, "%02x", datagram.octets[i]);
    add_client(&contents, (uint16_t)mixed(), PROTOCOL_UNKNOWN, (uint16_t)mixed(), &datagram);
}

static void add_ack_client(size_t count)
{
    clear(&datagram);
    while (count-- > 0)
        add_message(&datagram, filled(SDT_ACK, 0, MIXED), &nothing);
    add_client(&contents, (uint16_t)mixed(), PROTOCOL_SDT, (uint16_t)mixed(), &datagram);
}

/* A wrapper with so many octets of contents, in one client block PDU. */
static void print_opaque(const char *variant, uint8_t vector, size_t length)
{
    clear(&contents);
    add_opaque_client(length - CLIENT_HEAD);
    print_wrapped(variant, vector);
}

static void print_several(void)
{
    clear(&contents);
    add_ack_client(1);
    add_opaque_client(33);
    add_ack_client(2);
    print_wrapped("several", SDT_RELIABLE_WRAPPER);
}

/* Full of fields that the dissector knows: 4 PDUs of 10 octets and 202 ACKs of 7. */
static void print_many_acks(void)
{
    clear(&contents);
    add_ack_client(1);
    add_ack_client(50);
    add_ack_client(51);
    add_ack_client(100);
    if (contents.length != SDT_MAX_CONTENTS)
        die("the contents are not as long as they may be");
    print_wrapped("1454-acks", SDT_UNRELIABLE_WRAPPER);
}

int main(void)
{
    print_alone("reliable-wrapper", SDT_RELIABLE_WRAPPER, 0);
    print_alone("unreliable-wrapper", SDT_UNRELIABLE_WRAPPER, 0);
    print_alone("join-null", SDT_JOIN, SDT_ADDRESS_NULL);
    print_alone("join-ipv4", SDT_JOIN, SDT_ADDRESS_IPV4);
    print_alone("join-refuse", SDT_JOIN_REFUSE, 0);
    print_alone("join-accept", SDT_JOIN_ACCEPT, 0);
    print_alone("leaving", SDT_LEAVING, 0);
    print_alone("nak", SDT_NAK, 0);
    print_alone("get-sessions", SDT_GET_SESSIONS, 0);
    print_acks();
    print_opaque("10-no-datagram", SDT_UNRELIABLE_WRAPPER, CLIENT_HEAD);
    /* Whole lengths of 255 and 256: the length's second octet overflows into the first. */
    print_opaque("232", SDT_RELIABLE_WRAPPER, 232);
    print_opaque("233", SDT_UNRELIABLE_WRAPPER, 233);
    print_several();
    print_opaque("1454", SDT_RELIABLE_WRAPPER, SDT_MAX_CONTENTS);
    print_many_acks();
    return 0;
}
