/* show: reads a block of SDT messages, written in hex, and prints its messages. It is how a receiver uses sdt.h: open the block once, then
 * take message by message. Hex digits may be spaced at will; '#' begins a comment. Exit status 1: the block is refused or a message cannot
 * be read; 2: the text is no block. */
#include <ctype.h>
#include <inttypes.h>
#include <stdio.h>
#include <stdlib.h>

#include "sdt.h"

/* one octet more than a block may have, so that the library sees a block that is too long */
static uint8_t block[SDT_MAX_BLOCK + 1];

static int hex_digit(int c) {
    if (c >= '0' && c <= '9') return c - '0';
    c = tolower(c);
    return c >= 'a' && c <= 'f' ? c - 'a' + 10 : -1;
}

static void bad_text(const char *name, size_t line, size_t column, const char *what) {
    fprintf(stderr, "%s, line %zu, column %zu: %s\n", name, line, column, what);
    exit(2);
}

/* Reads the text into `block` and gives the number of octets. */
static size_t read_hex(FILE *in, const char *name) {
    size_t octets = 0, line = 1, column = 0;
    int high = -1, comment = 0, c;
    while ((c = getc(in)) != EOF) {
        column++;
        if (c == '\n') { line++; column = 0; comment = 0; continue; }
        if (c == '#') comment = 1;
        if (comment || isspace(c)) continue;
        int digit = hex_digit(c);
        if (digit < 0) bad_text(name, line, column, "expected a hex digit, a blank or '#'");
        if (high < 0) { high = digit; continue; }
        if (octets == sizeof block) bad_text(name, line, column, "the text goes on past 65,536 octets");
        block[octets++] = (uint8_t)(high * 16 + digit);
        high = -1;
    }
    if (high >= 0) bad_text(name, line, column, "the last octet has one hex digit only");
    return octets;
}

static void print_subject(const sdt_message *m) {
    printf(" cid %016" PRIx64 "%016" PRIx64 " channel %u mid %u reliable %" PRIu32, m->subject.cid.high, m->subject.cid.low,
           m->subject.channel, m->subject.mid, m->subject.reliable);
}

static void print_wrapper(const char *kind, const sdt_message *m, const uint8_t *data, size_t length) {
    printf("%s channel %u total %" PRIu32 " reliable %" PRIu32 " oldest %" PRIu32 " first %u last %u threshold %u contents ", kind,
           m->subject.channel, m->order.total, m->subject.reliable, m->order.oldest, m->order.first, m->order.last, m->order.threshold);
    if (length == SDT_WRAPPER_FIELDS) printf("-");
    for (size_t i = SDT_WRAPPER_FIELDS; i < length; i++) printf("%02x", data[i]);
}

static void print_join(const sdt_message *m) {
    printf("join");
    print_subject(m);
    printf(" reciprocal %u total %" PRIu32, m->reciprocal, m->order.total);
    uint32_t host = m->destination.host;
    if (m->destination.type > SDT_ADDRESS_IPV4) { printf(" address type %u", m->destination.type); return; }
    if (m->destination.type == SDT_ADDRESS_NULL) printf(" address null");
    else printf(" address %u.%u.%u.%u port %u", host >> 24, host >> 16 & 255, host >> 8 & 255, host & 255, m->destination.port);
    printf(" expiry %u flags %u holdoff %u modulus %u maxwait %u adhoc %u", m->parameters.expiry, m->parameters.flags, m->parameters.holdoff,
           m->parameters.modulus, m->parameters.maxwait, m->parameters.adhoc);
}

static void print_message(const sdt_message *m, const uint8_t *data, size_t length) {
    switch (m->vector) {
    case SDT_RELIABLE_WRAPPER: print_wrapper("reliable wrapper", m, data, length); break;
    case SDT_UNRELIABLE_WRAPPER: print_wrapper("unreliable wrapper", m, data, length); break;
    case SDT_JOIN: print_join(m); break;
    case SDT_JOIN_REFUSE: printf("join refuse"); print_subject(m); printf(" reason %u", m->reason); break;
    case SDT_JOIN_ACCEPT: printf("join accept"); print_subject(m); printf(" reciprocal %u", m->reciprocal); break;
    case SDT_LEAVING: printf("leaving"); print_subject(m); printf(" reason %u", m->reason); break;
    case SDT_ACK: printf("ack reliable %" PRIu32, m->subject.reliable); break;
    case SDT_NAK:
        printf("nak");
        print_subject(m);
        printf(" missed %" PRIu32 " to %" PRIu32, m->missed.first, m->missed.last);
        break;
    case SDT_GET_SESSIONS: printf("get sessions cid %016" PRIx64 "%016" PRIx64, m->subject.cid.high, m->subject.cid.low); break;
    }
    printf("\n");
}

/* Prints every message of an opened block; gives the number of those that cannot be read. */
static int print_all(size_t octets, sdt_cursor cursor) {
    int unreadable = 0;
    for (;;) {
        sdt_next_answer n = sdt_next_message(block, octets, cursor);
        if (n.outcome != SDT_OK) return unreadable;
        const uint8_t *data = block + n.found.data;
        sdt_message_answer r = sdt_read_message(block[n.found.vector], data, n.found.length);
        if (r.outcome == SDT_OK) print_message(&r.message, data, n.found.length);
        else { printf("refused %" PRIu32 ": vector %u with %zu octets\n", r.outcome, block[n.found.vector], n.found.length); unreadable++; }
        cursor = n.cursor;
    }
}

int main(int argc, char **argv) {
    const char *name = argc > 1 ? argv[1] : "standard input";
    FILE *in = argc > 1 ? fopen(name, "r") : stdin;
    if (!in) { perror(name); return 2; }
    size_t octets = read_hex(in, name);
    sdt_open_answer opened = sdt_open_block(block, octets);
    if (opened.outcome == SDT_MALFORMED) { printf("refused 11: the PDU at octet %zu is malformed\n", opened.bad); return 1; }
    if (opened.outcome != SDT_OK) { printf("refused %" PRIu32 ": %zu octets are no block\n", opened.outcome, octets); return 1; }
    printf("%zu message%s\n", opened.count, opened.count == 1 ? "" : "s");
    return print_all(octets, opened.cursor) ? 1 : 0;
}
