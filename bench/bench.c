/* bench.c: the same inputs through the library and through plain C.
 *
 *   bench count   runs each case once on each side, and calls end_of_case behind it so that an instruction counter can tell them apart
 *   bench time    measures each case on each side, best of several repetitions
 *
 * Each prints a line `CASE SIDE UNITS` for each, in this order; `bench time` adds the nanoseconds. A unit is a call or, where all messages of
 * a block are read, an octet. Both sides must give the same answers, or nothing is worth comparing: the exit status is then 1. */
#define _POSIX_C_SOURCE 200809L /* clock_gettime */

#include "plain.h"
#include "sdt.h"

#include <stdbool.h>
#include <stdio.h>
#include <stdlib.h>
#include <string.h>
#include <time.h>

typedef struct {
    const char *name;
    sdt_block_answer (*read_block)(const uint8_t *, size_t, uint32_t);
    sdt_open_answer (*open_block)(const uint8_t *, size_t);
    sdt_next_answer (*next_message)(const uint8_t *, size_t, sdt_cursor);
    sdt_message_answer (*read_message)(uint8_t, const uint8_t *, size_t);
    sdt_write_answer (*write_message)(sdt_message, const uint8_t *, size_t, uint8_t *, size_t);
} side;

static const side sides[] = {
    {"library", sdt_read_block, sdt_open_block, sdt_next_message, sdt_read_message, sdt_write_message},
    {"plain", plain_read_block, plain_open_block, plain_next_message, plain_read_message, plain_write_message},
};

/* ---- inputs: the same in every run ---- */

enum { BLOCKS = 40, ROOM = SDT_MAX_MESSAGE, MOST_WRAPPED = 40, KINDS = 9, OF_EACH_KIND = 8, MESSAGES = KINDS * OF_EACH_KIND };

typedef struct {
    uint8_t octets[SDT_MAX_BLOCK];
    size_t length;
} block;

typedef struct {
    uint8_t vector;
    uint8_t data[100];
    size_t length;
    sdt_message message;
} sample;

static block blocks[BLOCKS];
static block long_blocks[3];
static sample samples[MESSAGES];

static uint32_t random_below(uint32_t n)
{
    static uint64_t state = 88172645463325252u;

    state ^= state << 13;
    state ^= state >> 7;
    state ^= state << 17;
    return (uint32_t)(state >> 32) % n;
}

static void fill(uint8_t *at, size_t length)
{
    for (size_t i = 0; i < length; i++)
        at[i] = (uint8_t)random_below(256);
}

static const struct {
    uint8_t vector;
    size_t length;
} kinds[KINDS] = {
    {SDT_RELIABLE_WRAPPER, 20},
    {SDT_UNRELIABLE_WRAPPER, 20},
    {SDT_JOIN, 46},
    {SDT_JOIN_REFUSE, 25},
    {SDT_JOIN_ACCEPT, 26},
    {SDT_LEAVING, 25},
    {SDT_ACK, 4},
    {SDT_NAK, 32},
    {SDT_GET_SESSIONS, 16},
};

/* Data of a kind; half of the Joins have a null address, the others IPv4. Gives its length. */
static size_t fill_data(uint8_t *at, size_t kind)
{
    size_t length = kinds[kind].length;

    if (length == SDT_WRAPPER_FIELDS)
        length += random_below(MOST_WRAPPED);
    fill(at, length);
    if (kinds[kind].vector == SDT_JOIN) {
        at[30] = (uint8_t)random_below(2);
        length -= at[30] == SDT_ADDRESS_NULL ? 6 : 0;
    }
    return length;
}

/* The PDU of these flags (L, V and D count), of this vector and with room for this much data; gives where its data goes. */
static uint8_t *put_head(uint8_t *at, unsigned flags, uint8_t vector, size_t data)
{
    bool is_long = flags & 0x80;
    bool has_vector = flags & 0x40;
    size_t size = 2 + is_long + has_vector + data;

    if (is_long) {
        *at++ = (uint8_t)(flags | size >> 16);
        *at++ = (uint8_t)(size >> 8);
    } else {
        *at++ = (uint8_t)(flags | size >> 8);
    }
    *at++ = (uint8_t)size;
    if (has_vector)
        *at++ = vector;
    return at;
}

/* Adds a message of any kind: every third in the long form, and every third taking over its vector, its data or both. */
static void add_message(block *b)
{
    uint8_t data[100];
    size_t kind = random_below(KINDS);
    size_t length = fill_data(data, kind);
    unsigned form = random_below(3) == 0 ? 0x80 : 0;
    unsigned flags = b->length == 0 || random_below(3) > 0 ? 0x70 : random_below(4) << 5 | random_below(2) << 4;

    if (!(flags & 0x10))
        length = 0;
    uint8_t *at = put_head(b->octets + b->length, form | flags, kinds[kind].vector, length);
    memcpy(at, data, length);
    b->length = (size_t)(at - b->octets) + length;
}

/* A block of exactly this length: copies of another, so that every length has the same mix of messages, and one PDU that fills it up. */
static void make_long_block(block *b, const block *unit, size_t length)
{
    for (; b->length + unit->length + 4 <= length; b->length += unit->length)
        memcpy(b->octets + b->length, unit->octets, unit->length);
    size_t left = length - b->length - 4;
    uint8_t *at = put_head(b->octets + b->length, 0xF0, SDT_RELIABLE_WRAPPER, left);
    fill(at, left);
    b->length = length;
}

static void make_inputs(void)
{
    for (size_t i = 0; i < BLOCKS; i++) {
        for (size_t count = 0; count <= i; count++)
            add_message(&blocks[i]);
    }
    make_long_block(&long_blocks[0], &blocks[9], 1000);
    make_long_block(&long_blocks[1], &blocks[9], 8000);
    make_long_block(&long_blocks[2], &blocks[9], 65000);
    for (size_t i = 0; i < MESSAGES; i++) {
        sample *s = &samples[i];
        s->vector = kinds[i % KINDS].vector;
        s->length = fill_data(s->data, i % KINDS);
        s->message = plain_read_message(s->vector, s->data, s->length).message;
    }
}

/* ---- cases: one round of calls, and a sum over the answers, which both sides must share ---- */

static uint64_t sum_found(sdt_found f)
{
    return f.vector + 3 * f.data + 5 * f.length;
}

static uint64_t read_blocks(const side *s, const block *unused)
{
    uint64_t sum = 0;

    (void)unused;
    for (uint32_t i = 0; i < BLOCKS; i++) {
        const uint32_t positions[] = {0, i / 2, i};
        for (size_t p = 0; p < 3; p++) {
            sdt_block_answer a = s->read_block(blocks[i].octets, blocks[i].length, positions[p]);
            sum += a.outcome + sum_found(a.found);
        }
    }
    return sum;
}

static uint64_t read_messages(const side *s, const block *unused)
{
    uint64_t sum = 0;

    (void)unused;
    for (size_t i = 0; i < MESSAGES; i++) {
        sdt_message_answer a = s->read_message(samples[i].vector, samples[i].data, samples[i].length);
        sum += a.outcome + a.message.subject.cid.low + a.message.subject.reliable + a.message.order.threshold + a.message.parameters.adhoc;
    }
    return sum;
}

static uint64_t write_messages(const side *s, const block *unused)
{
    static uint8_t room[ROOM];
    uint64_t sum = 0;

    (void)unused;
    for (size_t i = 0; i < MESSAGES; i++) {
        const sample *m = &samples[i];
        size_t wrapped = m->vector <= SDT_UNRELIABLE_WRAPPER ? m->length - SDT_WRAPPER_FIELDS : 0;
        sdt_write_answer a = s->write_message(m->message, m->data + m->length - wrapped, wrapped, room, ROOM);
        sum += a.outcome + a.length + room[a.length - 1];
    }
    return sum;
}

static uint64_t walk(const side *s, const block *b)
{
    sdt_next_answer a = {.cursor = s->open_block(b->octets, b->length).cursor};
    uint64_t sum = 0;

    while ((a = s->next_message(b->octets, b->length, a.cursor)).outcome == SDT_OK)
        sum += sum_found(a.found);
    return sum + a.outcome;
}

static uint64_t read_by_position(const side *s, const block *b)
{
    sdt_block_answer a;
    uint64_t sum = 0;

    for (uint32_t position = 0; (a = s->read_block(b->octets, b->length, position)).outcome == SDT_OK; position++)
        sum += sum_found(a.found);
    return sum + a.outcome;
}

typedef struct {
    const char *name;
    uint64_t (*round)(const side *, const block *);
    const block *input;
    size_t units;
} bench_case;

static const bench_case cases[] = {
    {"read_block", read_blocks, NULL, 3 * BLOCKS},
    {"read_message", read_messages, NULL, MESSAGES},
    {"write_message", write_messages, NULL, MESSAGES},
    {"walk_1000", walk, &long_blocks[0], 1000},
    {"walk_8000", walk, &long_blocks[1], 8000},
    {"walk_65000", walk, &long_blocks[2], 65000},
    {"position_1000", read_by_position, &long_blocks[0], 1000},
    {"position_8000", read_by_position, &long_blocks[1], 8000},
};

enum { CASES = sizeof cases / sizeof *cases, SIDES = sizeof sides / sizeof *sides };

static bool same_answers(void)
{
    for (size_t i = 0; i < CASES; i++) {
        if (cases[i].round(&sides[0], cases[i].input) != cases[i].round(&sides[1], cases[i].input)) {
            fprintf(stderr, "%s: the library and plain C give different answers\n", cases[i].name);
            return false;
        }
    }
    return true;
}

/* ---- counting and timing ---- */

/* A place for the instruction counter to stop at. */
__attribute__((noinline)) void end_of_case(void);
void end_of_case(void)
{
    __asm__ volatile("");
}

static void count(void)
{
    for (size_t i = 0; i < CASES; i++) {
        for (size_t s = 0; s < SIDES; s++) {
            cases[i].round(&sides[s], cases[i].input);
            printf("%s %s %zu\n", cases[i].name, sides[s].name, cases[i].units);
            end_of_case();
        }
    }
}

/* Time of this process alone, so that others on the machine disturb less. */
static double nanoseconds(void)
{
    struct timespec t;

    clock_gettime(CLOCK_PROCESS_CPUTIME_ID, &t);
    return (double)t.tv_sec * 1e9 + (double)t.tv_nsec;
}

/* The time of one round, over as many rounds as are asked for. */
static double time_rounds(const bench_case *c, const side *s, size_t rounds)
{
    double start = nanoseconds();

    for (size_t i = 0; i < rounds; i++)
        c->round(s, c->input);
    return (nanoseconds() - start) / (double)rounds;
}

enum { REPETITIONS = 9, MILLISECONDS = 4 };

/* Both sides take turns, so that a disturbance does not fall on one of them alone. */
static void time_case(const bench_case *c)
{
    double best[SIDES] = {0};
    size_t rounds = 1;

    while (time_rounds(c, &sides[1], rounds) * (double)rounds < MILLISECONDS * 1e6)
        rounds *= 2;
    for (size_t i = 0; i < REPETITIONS * SIDES; i++) {
        size_t s = i % SIDES;
        double one = time_rounds(c, &sides[s], rounds);
        if (best[s] == 0 || one < best[s])
            best[s] = one;
    }
    for (size_t s = 0; s < SIDES; s++)
        printf("%s %s %zu %.1f\n", c->name, sides[s].name, c->units, best[s]);
}

int main(int argc, char **argv)
{
    if (argc != 2 || (strcmp(argv[1], "count") != 0 && strcmp(argv[1], "time") != 0)) {
        fputs("usage: bench count | bench time\n", stderr);
        return 2;
    }
    make_inputs();
    if (!same_answers())
        return 1;
    end_of_case();
    if (strcmp(argv[1], "count") == 0) {
        count();
    } else {
        for (size_t i = 0; i < CASES; i++)
            time_case(&cases[i]);
    }
    return 0;
}
