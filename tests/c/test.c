/* test.c: the interface of sdt.h used from C, as a user would. Every octet that is lent lies in a heap block of exactly its length, so that
 * a run under valgrind tells of one octet too many. Prints `ok` or `FAIL` and the name for each test; the exit status says if all passed. */
#include "sdt.h"

#include <ctype.h>
#include <stdbool.h>
#include <stdio.h>
#include <stdlib.h>
#include <string.h>

/* ---- checking ---- */

static unsigned failures;

/* what the checks are about, where a test runs over many inputs; printed with a failure */
static char about[200];

static void failed(const char *file, int line, const char *expression)
{
    failures++;
    printf("%s:%d: not true: %s%s%s\n", file, line, expression, about[0] ? "; with " : "", about);
}

#define CHECK(expression) ((expression) ? (void)0 : failed(__FILE__, __LINE__, #expression))
#define ABOUT(...) ((void)snprintf(about, sizeof about, __VA_ARGS__))

/* ---- lent octets ---- */

typedef struct {
    uint8_t *at;
    size_t length;
} octets;

/* A heap block of exactly this length. With length 0 it is NULL, as the interface allows. */
static octets of_length(size_t length)
{
    octets o = {NULL, length};

    if (length > 0 && (o.at = malloc(length)) == NULL) {
        puts("no memory");
        exit(2);
    }
    return o;
}

static octets filled(size_t length, uint8_t octet)
{
    octets o = of_length(length);

    if (length > 0)
        memset(o.at, octet, length);
    return o;
}

static octets part(octets from, size_t length)
{
    octets o = of_length(length);

    if (length > 0)
        memcpy(o.at, from.at, length);
    return o;
}

static unsigned digit(char c)
{
    return isdigit((unsigned char)c) ? (unsigned)(c - '0') : (unsigned)(toupper((unsigned char)c) - 'A' + 10);
}

/* The octets of pairs of hex digits; blanks may stand between the pairs. */
static octets hex(const char *text)
{
    octets o = of_length(strlen(text));
    size_t n = 0;

    for (; *text != '\0'; text++) {
        if (*text != ' ') {
            o.at[n++] = (uint8_t)(digit(text[0]) << 4 | digit(text[1]));
            text++;
        }
    }
    octets exact = part(o, n);
    free(o.at);
    return exact;
}

static bool same_octets(const uint8_t *a, const uint8_t *b, size_t length)
{
    return length == 0 || memcmp(a, b, length) == 0;
}

static bool all_are(const uint8_t *from, size_t length, uint8_t octet)
{
    for (size_t i = 0; i < length; i++) {
        if (from[i] != octet)
            return false;
    }
    return true;
}

/* ---- answers as values ---- */

static const sdt_found NOWHERE = {0, 0, 0};
static const sdt_cursor START = {0, {0, 0, 0}};

static bool same_found(sdt_found a, sdt_found b)
{
    return a.vector == b.vector && a.data == b.data && a.length == b.length;
}

static bool same_cursor(sdt_cursor a, sdt_cursor b)
{
    return a.next == b.next && same_found(a.before, b.before);
}

/* Checks field by field, so that a failure names the field. */
static void check_message(sdt_message came, sdt_message expected)
{
    CHECK(came.vector == expected.vector);
    CHECK(came.reason == expected.reason);
    CHECK(came.reciprocal == expected.reciprocal);
    CHECK(came.missed.first == expected.missed.first);
    CHECK(came.missed.last == expected.missed.last);
    CHECK(came.subject.cid.high == expected.subject.cid.high);
    CHECK(came.subject.cid.low == expected.subject.cid.low);
    CHECK(came.subject.reliable == expected.subject.reliable);
    CHECK(came.subject.channel == expected.subject.channel);
    CHECK(came.subject.mid == expected.subject.mid);
    CHECK(came.order.total == expected.order.total);
    CHECK(came.order.oldest == expected.order.oldest);
    CHECK(came.order.first == expected.order.first);
    CHECK(came.order.last == expected.order.last);
    CHECK(came.order.threshold == expected.order.threshold);
    CHECK(came.destination.host == expected.destination.host);
    CHECK(came.destination.port == expected.destination.port);
    CHECK(came.destination.type == expected.destination.type);
    CHECK(came.parameters.expiry == expected.parameters.expiry);
    CHECK(came.parameters.flags == expected.parameters.flags);
    CHECK(came.parameters.holdoff == expected.parameters.holdoff);
    CHECK(came.parameters.modulus == expected.parameters.modulus);
    CHECK(came.parameters.maxwait == expected.parameters.maxwait);
    CHECK(came.parameters.adhoc == expected.parameters.adhoc);
}

/* ---- checks of one call, with every field of its answer ---- */

static void check_position(octets block, uint32_t position, uint32_t outcome, sdt_found found, size_t bad)
{
    sdt_block_answer a = sdt_read_block(block.at, block.length, position);

    CHECK(a.outcome == outcome);
    CHECK(same_found(a.found, found));
    CHECK(a.bad == bad);
}

static void check_open(octets block, uint32_t outcome, size_t count, size_t bad)
{
    sdt_open_answer a = sdt_open_block(block.at, block.length);

    CHECK(a.outcome == outcome);
    CHECK(a.count == count);
    CHECK(same_cursor(a.cursor, START));
    CHECK(a.bad == bad);
}

/* Without a message, an answer holds the cursor that was given. */
static void check_no_next(octets block, sdt_cursor cursor, uint32_t outcome)
{
    sdt_next_answer a = sdt_next_message(block.at, block.length, cursor);

    CHECK(a.outcome == outcome);
    CHECK(same_found(a.found, NOWHERE));
    CHECK(same_cursor(a.cursor, cursor));
}

static void check_unreadable(uint8_t vector, octets data)
{
    static const sdt_message no_message;
    sdt_message_answer a = sdt_read_message(vector, data.at, data.length);

    CHECK(a.outcome == SDT_UNREADABLE);
    check_message(a.message, no_message);
}

/* Refused by a room of this length: the room stays as it was. */
static void check_not_written(sdt_message message, octets contents, size_t room_length, uint32_t outcome)
{
    octets room = filled(room_length, 0xAA);
    sdt_write_answer a = sdt_write_message(message, contents.at, contents.length, room.at, room.length);

    CHECK(a.outcome == outcome);
    CHECK(a.length == 0);
    CHECK(all_are(room.at, room.length, 0xAA));
    free(room.at);
}

/* Written into a room that has `spare` octets more than the message: those stay as they were. */
static void check_written(sdt_message message, octets contents, octets expected, size_t spare)
{
    octets room = filled(expected.length + spare, 0xAA);
    sdt_write_answer a = sdt_write_message(message, contents.at, contents.length, room.at, room.length);

    CHECK(a.outcome == SDT_OK);
    CHECK(a.length == expected.length);
    CHECK(same_octets(room.at, expected.at, expected.length));
    CHECK(all_are(room.at + expected.length, spare, 0xAA));
    free(room.at);
}

/* ---- blocks that are read ---- */

typedef struct {
    const char *block;
    size_t count;
    sdt_found messages[4];
} good_block;

static const good_block good_blocks[] = {
    {"", 0, {{0, 0, 0}}},
    {"70 07 0E 00 00 00 29", 1, {{2, 3, 4}}},
    /* no data, in the short and in the long form */
    {"70 03 01", 1, {{2, 3, 0}}},
    {"F0 00 04 01", 1, {{3, 4, 0}}},
    {"F0 00 06 01 AA BB", 1, {{3, 4, 2}}},
    /* the vector of the PDU before; its data; both; and neither, with H clear */
    {"70 05 01 AA BB 30 04 CC DD", 2, {{2, 3, 2}, {2, 7, 2}}},
    {"70 05 01 AA BB 60 03 02", 2, {{2, 3, 2}, {7, 3, 2}}},
    {"70 05 01 AA BB 00 02", 2, {{2, 3, 2}, {2, 3, 2}}},
    {"70 05 01 AA BB 50 04 02 CC", 2, {{2, 3, 2}, {7, 8, 1}}},
    /* H means nothing later */
    {"70 04 01 AA 20 02 40 03 02", 3, {{2, 3, 1}, {2, 3, 1}, {8, 3, 1}}},
    /* what is taken over is taken over again, each part from where it last stood */
    {"70 04 01 AA 60 03 02 30 04 BB CC 00 02", 4, {{2, 3, 1}, {6, 3, 1}, {6, 9, 2}, {6, 9, 2}}},
    /* long forms that take over */
    {"F0 00 05 01 AA 80 00 03 C0 00 04 02 90 00 03", 4, {{3, 4, 1}, {3, 4, 1}, {11, 4, 1}, {11, 15, 0}}},
    /* a PDU's data may look like PDUs */
    {"70 08 01 70 09 00 00 01", 1, {{2, 3, 5}}},
};

/* The loop that a user writes: it gives what reading by position gives. */
static size_t walk(octets block)
{
    sdt_cursor cursor = sdt_open_block(block.at, block.length).cursor;
    uint32_t position = 0;
    sdt_next_answer a;

    while ((a = sdt_next_message(block.at, block.length, cursor)).outcome == SDT_OK) {
        check_position(block, position, SDT_OK, a.found, 0);
        CHECK(a.cursor.next > cursor.next && a.cursor.next <= block.length);
        CHECK(same_found(a.cursor.before, a.found));
        cursor = a.cursor;
        position++;
    }
    check_no_next(block, cursor, SDT_FEWER);
    return position;
}

static void blocks_are_read(void)
{
    for (size_t i = 0; i < sizeof good_blocks / sizeof *good_blocks; i++) {
        const good_block *g = &good_blocks[i];
        octets block = hex(g->block);

        ABOUT("block %s", g->block);
        for (uint32_t position = 0; position < g->count; position++)
            check_position(block, position, SDT_OK, g->messages[position], 0);
        check_position(block, (uint32_t)g->count, SDT_FEWER, NOWHERE, 0);
        check_position(block, 0x100, SDT_FEWER, NOWHERE, 0);
        check_position(block, 0x10000, SDT_FEWER, NOWHERE, 0);
        check_position(block, UINT32_MAX, SDT_FEWER, NOWHERE, 0);
        check_open(block, SDT_OK, g->count, 0);
        CHECK(walk(block) == g->count);
        free(block.at);
    }
}

/* ---- malformed blocks ---- */

static const struct {
    const char *block;
    size_t bad;
} bad_blocks[] = {
    /* a first PDU without V, H or D */
    {"30 07 0E 00 00 00 29", 0},
    {"50 07 0E 00 00 00 29", 0},
    {"60 03 0E", 0},
    {"00 02", 0},
    {"80 00 03", 0},
    /* a length below the PDU's own fields */
    {"70 02 0E", 0},
    {"70 00 0E", 0},
    {"F0 00 03 0E", 0},
    {"70 03 01 70 02", 3},
    {"70 03 01 00 01", 3},
    {"70 03 01 00 00", 3},
    {"70 03 01 80 00 02", 3},
    {"70 03 01 C0 00 03 02", 3},
    /* length octets missing */
    {"70", 0},
    {"F0", 0},
    {"F0 00", 0},
    {"70 03 01 20", 3},
    {"70 03 01 80 00", 3},
    /* a length past the block's end */
    {"70 04 01", 0},
    {"F0 00 05 01", 0},
    {"71 03 01", 0},
    {"F1 00 04 01", 0},
    {"70 03 01 30 03", 3},
    {"70 03 01 70 04 01", 3},
    {"70 07 0E 00 00 00", 0},
    /* octets left over with D clear */
    {"70 03 01 20 03 AA", 3},
    {"70 03 01 60 04 02 AA", 3},
    {"70 03 01 80 00 04 AA", 3},
    /* the first of two, and one behind good ones */
    {"70 03 01 00 01 70 02", 3},
    {"70 03 01 00 02 00 02 10 02 60 02", 9},
};

static void malformed_blocks_are_refused(void)
{
    static const uint32_t positions[] = {0, 1, 2, 7, UINT32_MAX};

    for (size_t i = 0; i < sizeof bad_blocks / sizeof *bad_blocks; i++) {
        octets block = hex(bad_blocks[i].block);

        ABOUT("block %s", bad_blocks[i].block);
        for (size_t p = 0; p < sizeof positions / sizeof *positions; p++)
            check_position(block, positions[p], SDT_MALFORMED, NOWHERE, bad_blocks[i].bad);
        check_open(block, SDT_MALFORMED, 0, bad_blocks[i].bad);
        free(block.at);
    }
}

/* ---- sizes of blocks and PDUs ---- */

/* A PDU without data and then PDUs of two octets that take over all: as many messages as a block of this odd length can have. */
static octets block_of_small_pdus(size_t length)
{
    octets block = of_length(length);

    memcpy(block.at, "\x70\x03\x01", 3);
    for (size_t at = 3; at < length; at += 2)
        memcpy(block.at + at, "\x00\x02", 2);
    return block;
}

static void a_block_has_at_most_65535_octets(void)
{
    octets longest = block_of_small_pdus(65535);
    check_position(longest, 0, SDT_OK, (sdt_found){2, 3, 0}, 0);
    check_position(longest, 32766, SDT_OK, (sdt_found){2, 3, 0}, 0);
    check_position(longest, 32767, SDT_FEWER, NOWHERE, 0);
    check_open(longest, SDT_OK, 32767, 0);
    check_no_next(longest, (sdt_cursor){65535, {2, 3, 0}}, SDT_FEWER);

    octets longer = filled(65536, 0);
    memcpy(longer.at, longest.at, longest.length);
    check_position(longer, 0, SDT_WRONG_SIZE, NOWHERE, 0);
    check_open(longer, SDT_WRONG_SIZE, 0, 0);
    check_no_next(longer, START, SDT_ASTRAY);
    check_no_next(longer, (sdt_cursor){65536, {2, 3, 0}}, SDT_ASTRAY);
    free(longest.at);
    free(longer.at);
}

/* A block that is too long is refused with 1, although its first PDU is malformed too. */
static void size_is_judged_before_form(void)
{
    octets zeros = filled(65536, 0);

    check_position(zeros, 0, SDT_WRONG_SIZE, NOWHERE, 0);
    check_open(zeros, SDT_WRONG_SIZE, 0, 0);
    zeros.length--;
    check_position(zeros, 0, SDT_MALFORMED, NOWHERE, 0);
    check_open(zeros, SDT_MALFORMED, 0, 0);
    free(zeros.at);
}

/* One PDU over the whole block, in the form that its first octets say; in a block that is one octet shorter it is past the end. */
static void check_one_pdu(const char *head, size_t length, sdt_found found)
{
    octets start = hex(head);
    octets block = filled(length, 0xAA);
    memcpy(block.at, start.at, start.length);
    octets cut = part(block, length - 1);

    ABOUT("a PDU of %zu octets that begins with %s", length, head);
    check_position(block, 0, SDT_OK, found, 0);
    check_open(block, SDT_OK, 1, 0);
    check_position(cut, 0, SDT_MALFORMED, NOWHERE, 0);
    check_open(cut, SDT_MALFORMED, 0, 0);
    free(start.at);
    free(block.at);
    free(cut.at);
}

static void lengths_have_12_or_20_bits(void)
{
    check_one_pdu("70 FF 01", 255, (sdt_found){2, 3, 252});
    check_one_pdu("71 00 01", 256, (sdt_found){2, 3, 253});
    check_one_pdu("7F FF 01", 4095, (sdt_found){2, 3, 4092});
    check_one_pdu("F0 00 FF 01", 255, (sdt_found){3, 4, 251});
    check_one_pdu("F0 01 00 01", 256, (sdt_found){3, 4, 252});
    check_one_pdu("F0 10 00 01", 4096, (sdt_found){3, 4, 4092});
    check_one_pdu("F0 FF FF 01", 65535, (sdt_found){3, 4, 65531});

    /* 65,536 and 1,048,575 octets are lengths that no block can hold */
    octets block = filled(65535, 0);
    ABOUT("a PDU that is longer than any block");
    memcpy(block.at, "\xF1\x00\x00\x01", 4);
    check_position(block, 0, SDT_MALFORMED, NOWHERE, 0);
    memcpy(block.at, "\xFF\xFF\xFF\x01", 4);
    check_position(block, 0, SDT_MALFORMED, NOWHERE, 0);
    free(block.at);
}

/* ---- cursors ---- */

static bool inside(sdt_found f, size_t length)
{
    return f.vector < length && f.data <= length && f.length <= length - f.data;
}

/* What is promised for any cursor whatever. */
static void check_promise(octets block, sdt_cursor cursor)
{
    sdt_next_answer a = sdt_next_message(block.at, block.length, cursor);

    ABOUT("cursor %zu, %zu, %zu, %zu", cursor.next, cursor.before.vector, cursor.before.data, cursor.before.length);
    if (a.outcome == SDT_OK) {
        CHECK(inside(a.found, block.length));
        CHECK(a.cursor.next > cursor.next && a.cursor.next <= block.length);
        CHECK(same_found(a.cursor.before, a.found));
    } else {
        CHECK(a.outcome == SDT_ASTRAY || (a.outcome == SDT_FEWER && cursor.next == block.length));
        CHECK(same_found(a.found, NOWHERE));
        CHECK(same_cursor(a.cursor, cursor));
    }
}

static void any_cursor_is_safe(void)
{
    static const size_t values[] = {0, 1, 2, 3, 4, 5, 7, 8, 9, 10, 11, 12, SIZE_MAX / 2, SIZE_MAX - 3, SIZE_MAX};
    const size_t count = sizeof values / sizeof *values;
    octets block = hex("70 05 01 AA BB 00 02 30 03 CC");

    for (size_t i = 0; i < count * count * count * count; i++) {
        sdt_found before = {values[i % count], values[i / count % count], values[i / count / count % count]};
        check_promise(block, (sdt_cursor){values[i / count / count / count], before});
    }
    free(block.at);
}

static void strange_cursors_are_told(void)
{
    octets block = hex("70 05 01 AA BB 00 02 30 03 CC");

    /* past the end */
    check_no_next(block, (sdt_cursor){11, {2, 3, 2}}, SDT_ASTRAY);
    check_no_next(block, (sdt_cursor){SIZE_MAX, {2, 3, 2}}, SDT_ASTRAY);
    /* the message before it is not before it, whether the PDU would need it or not */
    check_no_next(block, (sdt_cursor){5, {5, 3, 2}}, SDT_ASTRAY);
    check_no_next(block, (sdt_cursor){5, {2, 3, 3}}, SDT_ASTRAY);
    check_no_next(block, (sdt_cursor){5, {2, 6, 0}}, SDT_ASTRAY);
    check_no_next(block, (sdt_cursor){7, {SIZE_MAX, 3, 2}}, SDT_ASTRAY);
    check_no_next(block, (sdt_cursor){7, {2, SIZE_MAX, 2}}, SDT_ASTRAY);
    check_no_next(block, (sdt_cursor){7, {2, 3, SIZE_MAX}}, SDT_ASTRAY);
    check_no_next(block, (sdt_cursor){7, {2, SIZE_MAX - 1, 3}}, SDT_ASTRAY);
    check_no_next(block, (sdt_cursor){10, {10, 9, 1}}, SDT_ASTRAY);
    /* at the end, with the message that was there or with another that lies before it */
    check_no_next(block, (sdt_cursor){10, {2, 9, 1}}, SDT_FEWER);
    check_no_next(block, (sdt_cursor){10, {9, 10, 0}}, SDT_FEWER);
    /* where no whole PDU begins: AA has a length past the end, BB too */
    check_no_next(block, (sdt_cursor){3, {2, 3, 0}}, SDT_ASTRAY);
    check_no_next(block, (sdt_cursor){4, {2, 3, 1}}, SDT_ASTRAY);
    check_no_next((octets){NULL, 0}, (sdt_cursor){1, {0, 0, 0}}, SDT_ASTRAY);
    check_no_next((octets){NULL, 0}, START, SDT_FEWER);
    free(block.at);
}

static void check_next(octets block, sdt_cursor cursor, sdt_found found, size_t next)
{
    sdt_next_answer a = sdt_next_message(block.at, block.length, cursor);

    CHECK(a.outcome == SDT_OK);
    CHECK(same_found(a.found, found));
    CHECK(same_cursor(a.cursor, (sdt_cursor){next, found}));
}

static void cursors_go_from_message_to_message(void)
{
    octets block = hex("70 05 01 AA BB 00 02 30 03 CC");

    check_next(block, START, (sdt_found){2, 3, 2}, 5);
    check_next(block, (sdt_cursor){5, {2, 3, 2}}, (sdt_found){2, 3, 2}, 7);
    check_next(block, (sdt_cursor){7, {2, 3, 2}}, (sdt_found){2, 9, 1}, 10);
    /* before the first PDU there is no message, so none is looked at */
    check_next(block, (sdt_cursor){0, {SIZE_MAX, SIZE_MAX, SIZE_MAX}}, (sdt_found){2, 3, 2}, 5);
    /* of another block, and yet inside this one: the message before it is believed */
    check_next(block, (sdt_cursor){5, {4, 5, 0}}, (sdt_found){4, 5, 0}, 7);
    check_next(block, (sdt_cursor){5, {0, 0, 5}}, (sdt_found){0, 0, 5}, 7);
    free(block.at);
}

/* Stale cursors: the block has shrunk since, or was never a good one. */
static void cursors_of_another_block(void)
{
    octets block = hex("70 05 01 AA BB 00 02 30 03 CC");
    octets shorter = part(block, 7);
    octets cut = part(block, 6);
    octets broken = hex("70 03 01 00 03 AA");

    check_no_next(shorter, (sdt_cursor){10, {2, 9, 1}}, SDT_ASTRAY);
    check_no_next(shorter, (sdt_cursor){7, {2, 3, 2}}, SDT_FEWER);
    check_no_next(cut, (sdt_cursor){5, {2, 3, 2}}, SDT_ASTRAY);
    check_next(broken, START, (sdt_found){2, 3, 0}, 3);
    check_no_next(broken, (sdt_cursor){3, {2, 3, 0}}, SDT_ASTRAY);
    free(block.at);
    free(shorter.at);
    free(cut.at);
    free(broken.at);
}

/* ---- messages ---- */

#define CID_HEX "A0 A1 A2 A3 A4 A5 A6 A7 A8 A9 AA AB AC AD AE AF"
#define CID_NUMBERS {0xA0A1A2A3A4A5A6A7u, 0xA8A9AAABACADAEAFu}
#define MEMBER_HEX CID_HEX " B0 B1 C0 C1 D0 D1 D2 D3"
#define MEMBER_NUMBERS {.cid = CID_NUMBERS, .channel = 0xB0B1, .mid = 0xC0C1, .reliable = 0xD0D1D2D3u}
#define WRAPPER_HEX "B0 B1 E0 E1 E2 E3 D0 D1 D2 D3 81 82 83 84 91 92 93 94 95 96"
#define WRAPPER_NUMBERS .subject = {.channel = 0xB0B1, .reliable = 0xD0D1D2D3u}, .order = {0xE0E1E2E3u, 0x81828384u, 0x9192, 0x9394, 0x9596}
#define JOIN_HEX CID_HEX " C0 C1 B0 B1 F0 F1 E0 E1 E2 E3 D0 D1 D2 D3"
#define JOIN_NUMBERS .vector = SDT_JOIN, .reciprocal = 0xF0F1, .subject = MEMBER_NUMBERS, .order = {.total = 0xE0E1E2E3u}
#define PARAMETERS_HEX " 11 92 13 14 15 16 17 18 19"
#define PARAMETERS_NUMBERS {0x11, 0x92, 0x1314, 0x1516, 0x1718, 0x19}

typedef struct {
    const char *name;
    const char *head; /* of the PDU that is written, without contents */
    const char *data;
    sdt_message message;
} sample;

static const sample samples[] = {
    {"Reliable Wrapper", "70 17 01", WRAPPER_HEX, {.vector = SDT_RELIABLE_WRAPPER, WRAPPER_NUMBERS}},
    {"Unreliable Wrapper", "70 17 02", WRAPPER_HEX, {.vector = SDT_UNRELIABLE_WRAPPER, WRAPPER_NUMBERS}},
    {"Join, null address", "70 2B 04", JOIN_HEX " 00" PARAMETERS_HEX, {JOIN_NUMBERS, .parameters = PARAMETERS_NUMBERS}},
    {"Join, IPv4 address", "70 31 04", JOIN_HEX " 01 31 32 C0 A8 01 FE" PARAMETERS_HEX,
     {JOIN_NUMBERS, .destination = {0xC0A801FEu, 0x3132, SDT_ADDRESS_IPV4}, .parameters = PARAMETERS_NUMBERS}},
    {"Join Refuse", "70 1C 05", MEMBER_HEX " 77", {.vector = SDT_JOIN_REFUSE, .subject = MEMBER_NUMBERS, .reason = 0x77}},
    {"Join Accept", "70 1D 06", MEMBER_HEX " F0 F1", {.vector = SDT_JOIN_ACCEPT, .subject = MEMBER_NUMBERS, .reciprocal = 0xF0F1}},
    {"Leaving", "70 1C 08", MEMBER_HEX " 77", {.vector = SDT_LEAVING, .subject = MEMBER_NUMBERS, .reason = 0x77}},
    {"ACK", "70 07 0E", "D0 D1 D2 D3", {.vector = SDT_ACK, .subject = {.reliable = 0xD0D1D2D3u}}},
    {"NAK", "70 23 0F", MEMBER_HEX " 21 22 23 24 25 26 27 28",
     {.vector = SDT_NAK, .subject = MEMBER_NUMBERS, .missed = {0x21222324u, 0x25262728u}}},
    {"Get Sessions", "70 13 10", CID_HEX, {.vector = SDT_GET_SESSIONS, .subject = {.cid = CID_NUMBERS}}},
};

static bool is_wrapper(const sample *s)
{
    return s->message.vector == SDT_RELIABLE_WRAPPER || s->message.vector == SDT_UNRELIABLE_WRAPPER;
}

static void for_each_sample(void (*test)(const sample *))
{
    for (size_t i = 0; i < sizeof samples / sizeof *samples; i++) {
        ABOUT("%s", samples[i].name);
        test(&samples[i]);
    }
}

static void check_read(uint8_t vector, octets data, sdt_message expected)
{
    sdt_message_answer a = sdt_read_message(vector, data.at, data.length);

    CHECK(a.outcome == SDT_OK);
    check_message(a.message, expected);
}

static void one_is_read(const sample *s)
{
    octets data = hex(s->data);

    check_read(s->message.vector, data, s->message);
    free(data.at);
}

static void every_field_is_read(void)
{
    for_each_sample(one_is_read);
}

/* Data of another length: the sample's octets, cut off or with some behind them. */
static void one_of_another_length(const sample *s)
{
    octets right = hex(s->data);

    for (size_t length = 0; length < 70; length++) {
        octets data = filled(length, 0x5A);
        if (length > 0)
            memcpy(data.at, right.at, length < right.length ? length : right.length);
        ABOUT("%s with %zu octets", s->name, length);
        if (length == right.length || (is_wrapper(s) && length > right.length))
            check_read(s->message.vector, data, s->message);
        else
            check_unreadable(s->message.vector, data);
        free(data.at);
    }
    free(right.at);
}

static void data_has_the_length_of_its_message(void)
{
    for_each_sample(one_of_another_length);
}

/* Reading a message checks 4 alone: contents that are too long to be written are read. */
static void a_wrapper_is_read_whatever_its_contents(void)
{
    static const size_t lengths[] = {20, 20 + 1454, 20 + 1455, 65535};
    octets wrapper = hex(WRAPPER_HEX);

    for (size_t i = 0; i < sizeof lengths / sizeof *lengths; i++) {
        octets data = filled(lengths[i], 0x5A);
        memcpy(data.at, wrapper.at, wrapper.length);
        check_read(SDT_RELIABLE_WRAPPER, data, samples[0].message);
        check_read(SDT_UNRELIABLE_WRAPPER, data, samples[1].message);
        free(data.at);
    }
    wrapper.length--;
    check_unreadable(SDT_RELIABLE_WRAPPER, wrapper);
    check_unreadable(SDT_UNRELIABLE_WRAPPER, wrapper);
    free(wrapper.at);
}

/* Address types against lengths: null goes with 40, IPv4 with 46, any other with 31 and more; of that one only the type is known. */
static void a_join_has_the_length_of_its_address(void)
{
    static const size_t lengths[] = {0, 29, 30, 31, 32, 39, 40, 41, 45, 46, 47, 300};

    for (size_t i = 0; i < sizeof lengths / sizeof *lengths; i++) {
        for (unsigned type = 0; type < 256; type++) {
            octets data = filled(lengths[i], 0);
            bool readable = type == SDT_ADDRESS_NULL ? data.length == 40 : type == SDT_ADDRESS_IPV4 ? data.length == 46 : data.length >= 31;
            if (data.length > 30)
                data.at[30] = (uint8_t)type;
            ABOUT("a Join of %zu octets with address type %u", data.length, type);
            if (readable)
                check_read(SDT_JOIN, data, (sdt_message){.vector = SDT_JOIN, .destination.type = (uint8_t)type});
            else
                check_unreadable(SDT_JOIN, data);
            free(data.at);
        }
    }
}

static void of_a_join_with_another_address_the_type_is_known(void)
{
    octets whole = hex(JOIN_HEX " 02 31 32 C0 A8 01 FE" PARAMETERS_HEX);
    octets least = part(whole, 31);
    sdt_message expected = {JOIN_NUMBERS, .destination.type = 2};

    check_read(SDT_JOIN, whole, expected);
    check_read(SDT_JOIN, least, expected);
    free(whole.at);
    free(least.at);
}

static bool is_ours(unsigned vector)
{
    for (size_t i = 0; i < sizeof samples / sizeof *samples; i++) {
        if (samples[i].message.vector == vector)
            return true;
    }
    return false;
}

static void other_vectors_are_unreadable(void)
{
    for (unsigned vector = 0; vector < 256; vector++) {
        ABOUT("vector %u", vector);
        check_unreadable((uint8_t)vector, (octets){NULL, 0});
        for (size_t length = 1; length < 50 && !is_ours(vector); length++) {
            octets data = filled(length, 0);
            check_unreadable((uint8_t)vector, data);
            free(data.at);
        }
    }
}

/* ---- writing ---- */

static const octets NO_CONTENTS = {NULL, 0};

/* The PDU that a sample is written as. */
static octets written(const sample *s)
{
    char text[400];

    snprintf(text, sizeof text, "%s %s", s->head, s->data);
    return hex(text);
}

static void one_is_written(const sample *s)
{
    octets pdu = written(s);

    check_written(s->message, NO_CONTENTS, pdu, 0);
    check_written(s->message, NO_CONTENTS, pdu, 1);
    check_written(s->message, NO_CONTENTS, pdu, 1500);
    for (size_t room = 0; room < pdu.length; room++)
        check_not_written(s->message, NO_CONTENTS, room, SDT_WRONG_SIZE);
    free(pdu.at);
}

static void every_field_is_written(void)
{
    for_each_sample(one_is_written);
}

/* The sample's message, with all bits set in each field that its kind does not have. The samples hold no 0 but in such fields, and in the
 * type of a Join's null address. */
static sdt_message with_other_fields_set(const sample *s)
{
    sdt_message m = s->message;

#define FILL(field) (m.field -= m.field == 0)
    FILL(reason), FILL(reciprocal), FILL(missed.first), FILL(missed.last);
    FILL(subject.cid.high), FILL(subject.cid.low), FILL(subject.reliable), FILL(subject.channel), FILL(subject.mid);
    FILL(order.total), FILL(order.oldest), FILL(order.first), FILL(order.last), FILL(order.threshold);
    FILL(destination.host), FILL(destination.port);
    if (m.vector != SDT_JOIN)
        FILL(destination.type);
    FILL(parameters.expiry), FILL(parameters.flags), FILL(parameters.holdoff);
    FILL(parameters.modulus), FILL(parameters.maxwait), FILL(parameters.adhoc);
    return m;
}

/* Fields that a message does not have are not looked at, nor are contents by any other than a wrapper. */
static void one_is_written_from_its_own_fields(const sample *s)
{
    octets pdu = written(s);
    octets contents = is_wrapper(s) ? NO_CONTENTS : filled(2000, 0x5A);

    check_written(with_other_fields_set(s), contents, pdu, 0);
    check_not_written(with_other_fields_set(s), contents, pdu.length - 1, SDT_WRONG_SIZE);
    free(pdu.at);
    free(contents.at);
}

static void a_message_is_written_from_its_own_fields(void)
{
    for_each_sample(one_is_written_from_its_own_fields);
}

/* Written, then read as a block, then read as a message. */
static void one_comes_back(const sample *s)
{
    octets room = filled(SDT_MAX_MESSAGE, 0xAA);
    size_t length = sdt_write_message(s->message, NULL, 0, room.at, room.length).length;
    octets block = part(room, length);
    sdt_found found = sdt_read_block(block.at, block.length, 0).found;

    CHECK(same_found(found, (sdt_found){2, 3, length - 3}));
    check_open(block, SDT_OK, 1, 0);
    check_read(block.at[2], (octets){block.at + 3, length - 3}, s->message);
    free(room.at);
    free(block.at);
}

static void what_is_written_is_read_again(void)
{
    for_each_sample(one_comes_back);
}

/* The PDU of a sample wrapper with these contents; its length stands in 12 bits. */
static octets wrapper_with(const sample *s, octets contents)
{
    octets own = written(s);
    octets pdu = filled(own.length + contents.length, 0);

    memcpy(pdu.at, own.at, own.length);
    if (contents.length > 0)
        memcpy(pdu.at + own.length, contents.at, contents.length);
    pdu.at[0] = (uint8_t)(0x70 | pdu.length >> 8);
    pdu.at[1] = (uint8_t)pdu.length;
    free(own.at);
    return pdu;
}

static octets counted(size_t length)
{
    octets o = filled(length, 0);

    for (size_t i = 0; i < length; i++)
        o.at[i] = (uint8_t)(i * 7 + 1);
    return o;
}

static void check_contents(const sample *s, size_t length)
{
    octets contents = counted(length);
    octets pdu = wrapper_with(s, contents);

    ABOUT("%s with %zu octets of contents", s->name, length);
    check_written(s->message, contents, pdu, 0);
    check_written(s->message, contents, pdu, 3);
    check_not_written(s->message, contents, pdu.length - 1, SDT_WRONG_SIZE);
    check_not_written(s->message, contents, 0, SDT_WRONG_SIZE);
    check_position(pdu, 0, SDT_OK, (sdt_found){2, 3, pdu.length - 3}, 0);
    check_read(s->message.vector, (octets){pdu.at + 3, pdu.length - 3}, s->message);
    free(contents.at);
    free(pdu.at);
}

static void wrappers_carry_contents(void)
{
    static const size_t lengths[] = {0, 1, 2, 232, 233, 1453, SDT_MAX_CONTENTS};

    CHECK(SDT_MAX_MESSAGE == 3 + SDT_WRAPPER_FIELDS + SDT_MAX_CONTENTS);
    for (size_t i = 0; i < sizeof lengths / sizeof *lengths; i++) {
        check_contents(&samples[0], lengths[i]);
        check_contents(&samples[1], lengths[i]);
    }
}

static void contents_have_at_most_1454_octets(void)
{
    static const size_t lengths[] = {SDT_MAX_CONTENTS + 1, 4095 - 23, 4096 - 23, 70000};

    for (size_t i = 0; i < sizeof lengths / sizeof *lengths; i++) {
        octets contents = counted(lengths[i]);
        ABOUT("%zu octets of contents", lengths[i]);
        check_not_written(samples[0].message, contents, 23 + lengths[i], SDT_CONTENTS_OVER);
        check_not_written(samples[1].message, contents, 23 + lengths[i] + 9, SDT_CONTENTS_OVER);
        /* 1 is checked before 7 */
        check_not_written(samples[0].message, contents, 22 + lengths[i], SDT_WRONG_SIZE);
        check_not_written(samples[1].message, contents, SDT_MAX_MESSAGE, SDT_WRONG_SIZE);
        check_not_written(samples[1].message, contents, 0, SDT_WRONG_SIZE);
        free(contents.at);
    }
}

/* 4 is checked before 1 and 7: neither a room that is too short nor contents that are too long change it. */
static void check_no_form(sdt_message message)
{
    octets contents = counted(SDT_MAX_CONTENTS + 1);

    check_not_written(message, NO_CONTENTS, SDT_MAX_MESSAGE, SDT_UNREADABLE);
    check_not_written(message, contents, 2000, SDT_UNREADABLE);
    check_not_written(message, contents, 5, SDT_UNREADABLE);
    check_not_written(message, NO_CONTENTS, 0, SDT_UNREADABLE);
    free(contents.at);
}

static void what_has_no_form_is_not_written(void)
{
    for (unsigned vector = 0; vector < 256; vector++) {
        ABOUT("vector %u", vector);
        if (!is_ours(vector))
            check_no_form((sdt_message){.vector = (uint8_t)vector, .subject = MEMBER_NUMBERS});
    }
    for (unsigned type = 2; type < 256; type++) {
        ABOUT("a Join with address type %u", type);
        check_no_form((sdt_message){JOIN_NUMBERS, .destination.type = (uint8_t)type, .parameters = PARAMETERS_NUMBERS});
    }
}

/* ---- as a user would ---- */

/* Example P 7 of the paper. */
static void the_ack_of_41(void)
{
    octets block = hex("70 07 0E 00 00 00 29");
    sdt_message ack = {.vector = SDT_ACK, .subject = {.reliable = 41}};
    sdt_block_answer a = sdt_read_block(block.at, block.length, 0);

    CHECK(a.outcome == SDT_OK);
    check_read(block.at[a.found.vector], (octets){block.at + a.found.data, a.found.length}, ack);
    check_position(block, 1, SDT_FEWER, NOWHERE, 0);
    check_written(ack, NO_CONTENTS, block, 0);
    free(block.at);
}

/* Messages written behind each other into one packet, and the packet read by one loop. */
static void a_packet_is_packed_and_read(void)
{
    octets packet = filled(400, 0xAA);
    size_t end = 0;
    for (size_t i = 0; i < sizeof samples / sizeof *samples; i++)
        end += sdt_write_message(samples[i].message, NULL, 0, packet.at + end, packet.length - end).length;
    octets block = part(packet, end);
    free(packet.at);

    sdt_open_answer open = sdt_open_block(block.at, block.length);
    CHECK(open.outcome == SDT_OK);
    CHECK(open.count == sizeof samples / sizeof *samples);
    size_t count = 0;
    sdt_next_answer a = {.cursor = open.cursor};
    while ((a = sdt_next_message(block.at, block.length, a.cursor)).outcome == SDT_OK) {
        ABOUT("message %zu of the packet", count);
        check_read(block.at[a.found.vector], (octets){block.at + a.found.data, a.found.length}, samples[count].message);
        count++;
    }
    CHECK(a.outcome == SDT_FEWER);
    CHECK(count == open.count);
    free(block.at);
}

static const struct {
    const char *name;
    void (*run)(void);
} tests[] = {
#define TEST(function) {#function, function}
    TEST(blocks_are_read),
    TEST(malformed_blocks_are_refused),
    TEST(a_block_has_at_most_65535_octets),
    TEST(size_is_judged_before_form),
    TEST(lengths_have_12_or_20_bits),
    TEST(any_cursor_is_safe),
    TEST(strange_cursors_are_told),
    TEST(cursors_go_from_message_to_message),
    TEST(cursors_of_another_block),
    TEST(every_field_is_read),
    TEST(data_has_the_length_of_its_message),
    TEST(a_wrapper_is_read_whatever_its_contents),
    TEST(a_join_has_the_length_of_its_address),
    TEST(of_a_join_with_another_address_the_type_is_known),
    TEST(other_vectors_are_unreadable),
    TEST(every_field_is_written),
    TEST(a_message_is_written_from_its_own_fields),
    TEST(what_is_written_is_read_again),
    TEST(wrappers_carry_contents),
    TEST(contents_have_at_most_1454_octets),
    TEST(what_has_no_form_is_not_written),
    TEST(the_ack_of_41),
    TEST(a_packet_is_packed_and_read),
};

int main(void)
{
    unsigned bad = 0;

    for (size_t i = 0; i < sizeof tests / sizeof *tests; i++) {
        failures = 0;
        about[0] = '\0';
        tests[i].run();
        printf("%s %s\n", failures == 0 ? "ok  " : "FAIL", tests[i].name);
        bad += failures > 0;
    }
    return bad > 0;
}
