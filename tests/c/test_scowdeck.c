/*
 * The boundary from C: sizes, the bench of the paper, every refusal, odd words, short and long
 * answers, NULL with length 0, what was written read back, and what was closed opened. The same text
 * compiles as C99 and as C++. What must be there is written out here or taken from the paper, never from the library.
 *
 * All memory that is lent lies in one `struct world`, with guards around each slice. Before a call
 * the test edits a copy of it to what must be there afterwards; after the call every octet of the two
 * is compared.
 */
#include "scowdeck.h"

#include <stdio.h>
#include <string.h>

static unsigned long checks, failures;

static void check(int holds, const char *name, const char *what)
{
    checks++;
    if (!holds) {
        failures++;
        if (failures <= 20) fprintf(stderr, "FAILED: %s: %s\n", name, what);
    }
}

/* ---- the memory that is lent ------------------------------------------------------------------- */

#define GUARD 64
#define RECORD_ROOM 48
#define STORE_ROOM 32769
#define OUTPUT_ROOM 8192
#define INPUT_ROOM 70000
#define ANSWER_ROOM 32

struct world {
    uint32_t record_before[GUARD], record[RECORD_ROOM], record_after[GUARD];
    uint32_t answer_before[GUARD], answer[ANSWER_ROOM], answer_after[GUARD];
    uint8_t store_before[GUARD], store[STORE_ROOM], store_after[GUARD];
    uint8_t output_before[GUARD], output[OUTPUT_ROOM], output_after[GUARD];
    uint8_t input_before[GUARD], input[INPUT_ROOM], input_after[GUARD];
};

static struct world now, then;

/* Every octet gets a value of its place, the record is fresh. */
static void new_world(void)
{
    uint8_t *p = (uint8_t *)&now;
    size_t i;
    for (i = 0; i < sizeof now; i++) p[i] = (uint8_t)(i * 167 + i / 256 * 13 + 0xA5);
    memset(now.record, 0, SCOWDECK_RECORD_WORDS * sizeof(uint32_t));
}

static void put_channel(uint32_t *record, unsigned v, uint32_t heard, uint32_t last, uint32_t state, uint32_t number)
{
    record[4 * v] = heard;
    record[4 * v + 1] = last;
    record[4 * v + 2] = state;
    record[4 * v + 3] = number;
}

/* Says which part of the world is not as it must be. */
static void compare_worlds(const char *name)
{
    check(memcmp(now.record_before, then.record_before, sizeof now.record_before + sizeof now.record + sizeof now.record_after) == 0, name, "record");
    check(memcmp(now.answer_before, then.answer_before, sizeof now.answer_before + sizeof now.answer + sizeof now.answer_after) == 0, name, "answer");
    check(memcmp(now.store_before, then.store_before, sizeof now.store_before + sizeof now.store + sizeof now.store_after) == 0, name, "store");
    check(memcmp(now.output_before, then.output_before, sizeof now.output_before + sizeof now.output + sizeof now.output_after) == 0, name, "output");
    check(memcmp(now.input_before, then.input_before, sizeof now.input_before + sizeof now.input + sizeof now.input_after) == 0, name, "frame or run");
    check(memcmp(&now, &then, sizeof now) == 0, name, "some octet");
}

static void expect_words(const uint32_t *words, size_t count, size_t lent)
{
    size_t i;
    for (i = 0; i < count && i < lent; i++) then.answer[i] = words[i];
}

/* ---- calls ------------------------------------------------------------------------------------- */

struct reading {
    uint32_t length, spacecraft, error_control;
    size_t record_words, store_octets, output_octets, frame_octets, answer_words;
};

struct writing {
    uint32_t length, spacecraft, error_control, channel;
    uint8_t master_count, channel_count;
    uint32_t has_word, word;
    size_t run_octets;
    uint32_t offset, left_over;
    size_t output_octets, answer_words;
};

struct opening {
    uint32_t length, spacecraft, error_control;
    size_t frame_octets, answer_words;
};

struct closing {
    uint32_t length, spacecraft, error_control, channel;
    uint8_t master_count, channel_count;
    uint32_t has_word, word, pointer;
    size_t output_octets;
};

/* The bench: N = 20, spacecraft 171, no error control. */
static struct reading bench_reading(void)
{
    struct reading r = {20, 171, 0, SCOWDECK_RECORD_WORDS, SCOWDECK_STORE_OCTETS, SCOWDECK_OUTPUT_OCTETS, 20, SCOWDECK_READ_WORDS};
    return r;
}

static struct writing bench_writing(void)
{
    struct writing w = {20, 171, 0, 3, 9, 4, 0, 0, 0, 0, 0, 20, SCOWDECK_WRITE_WORDS};
    return w;
}

static struct opening bench_opening(void)
{
    struct opening o = {20, 171, 0, 20, SCOWDECK_OPEN_WORDS};
    return o;
}

static struct closing bench_closing(void)
{
    struct closing c = {20, 171, 0, 3, 9, 4, 0, 0, 0, 20};
    return c;
}

/* A slice of length 0 is lent as NULL. */
#define LENT(pointer, length) ((length) != 0 ? (pointer) : NULL)

static uint32_t call_read(struct reading r)
{
    return scowdeck_read(r.length, r.spacecraft, r.error_control, LENT(now.record, r.record_words), r.record_words,
                         LENT(now.store, r.store_octets), r.store_octets, LENT(now.output, r.output_octets), r.output_octets,
                         LENT(now.input, r.frame_octets), r.frame_octets, LENT(now.answer, r.answer_words), r.answer_words);
}

static uint32_t call_write(struct writing w)
{
    return scowdeck_write(w.length, w.spacecraft, w.error_control, w.channel, w.master_count, w.channel_count, w.has_word, w.word,
                          LENT(now.input, w.run_octets), w.run_octets, w.offset, w.left_over,
                          LENT(now.output, w.output_octets), w.output_octets, LENT(now.answer, w.answer_words), w.answer_words);
}

static uint32_t call_open(struct opening o)
{
    return scowdeck_open(o.length, o.spacecraft, o.error_control, LENT(now.input, o.frame_octets), o.frame_octets,
                         LENT(now.answer, o.answer_words), o.answer_words);
}

static uint32_t call_close(struct closing c)
{
    return scowdeck_close(c.length, c.spacecraft, c.error_control, c.channel, c.master_count, c.channel_count, c.has_word, c.word,
                          c.pointer, LENT(now.output, c.output_octets), c.output_octets);
}

/* `then` is edited already, but for the answer. */
static void read_gives(const char *name, struct reading r, const uint32_t words[20])
{
    uint32_t said;
    memcpy(then.answer, now.answer, sizeof now.answer);
    expect_words(words, SCOWDECK_READ_WORDS, r.answer_words);
    said = call_read(r);
    check(said == words[0], name, "returned number");
    compare_worlds(name);
}

static void write_gives(const char *name, struct writing w, const uint32_t words[5])
{
    uint32_t said;
    memcpy(then.answer, now.answer, sizeof now.answer);
    expect_words(words, SCOWDECK_WRITE_WORDS, w.answer_words);
    said = call_write(w);
    check(said == words[0], name, "returned number");
    compare_worlds(name);
}

static void read_refuses(const char *name, struct reading r, uint32_t number)
{
    uint32_t words[20] = {0};
    words[0] = number;
    then = now;
    read_gives(name, r, words);
}

static void write_refuses(const char *name, struct writing w, uint32_t number)
{
    uint32_t words[5];
    words[0] = number;
    words[1] = w.offset;
    words[2] = w.left_over;
    words[3] = w.master_count;
    words[4] = w.channel_count;
    then = now;
    write_gives(name, w, words);
}

/* An opening writes nothing but its answer, whatever it says. */
static void open_gives(const char *name, struct opening o, const uint32_t words[14])
{
    uint32_t said;
    then = now;
    expect_words(words, SCOWDECK_OPEN_WORDS, o.answer_words);
    said = call_open(o);
    check(said == words[0], name, "returned number");
    compare_worlds(name);
}

static void open_refuses(const char *name, struct opening o, uint32_t number)
{
    uint32_t words[14] = {0};
    words[0] = number;
    open_gives(name, o, words);
}

/* The output becomes this frame, and nothing else changes. */
static void close_gives(const char *name, struct closing c, const uint8_t *frame)
{
    then = now;
    memcpy(then.output, frame, c.output_octets);
    check(call_close(c) == 0, name, "returned number");
    compare_worlds(name);
}

static void close_refuses(const char *name, struct closing c, uint32_t number)
{
    then = now;
    check(call_close(c) == number, name, "returned number");
    compare_worlds(name);
}

/* ---- small helpers ----------------------------------------------------------------------------- */

static uint32_t seed = 1;

static uint32_t chance(uint32_t below)
{
    seed = seed * 1664525u + 1013904223u;
    return (seed >> 8) % below;
}

/* The error control field by long division of bits, the first sixteen inverted. */
static uint32_t divided(const uint8_t *octets, size_t count)
{
    static uint8_t bits[8 * 2100 + 16];
    size_t n = 8 * count, i;
    uint32_t rest = 0;
    memset(bits, 0, sizeof bits);
    for (i = 0; i < n; i++) bits[i] = (uint8_t)(octets[i / 8] >> (7 - i % 8) & 1);
    for (i = 0; i < 16; i++) bits[i] ^= 1;
    for (i = 0; i < n; i++) {
        if (bits[i]) {
            bits[i] ^= 1;
            bits[i + 4] ^= 1;
            bits[i + 11] ^= 1;
            bits[i + 16] ^= 1;
        }
    }
    for (i = 0; i < 16; i++) rest = rest * 2 + bits[n + i];
    return rest;
}

static void close_check(uint8_t *frame, size_t length)
{
    uint32_t field = divided(frame, length - 2);
    frame[length - 2] = (uint8_t)(field >> 8);
    frame[length - 1] = (uint8_t)field;
}

/* A packet of `total` octets; its body depends on its place in the run. */
static void lay_packet(uint8_t *at, uint32_t application, size_t total, uint32_t sequence)
{
    size_t i;
    at[0] = (uint8_t)(application >> 8 & 7);
    at[1] = (uint8_t)application;
    at[2] = (uint8_t)(0xC0 | (sequence >> 8 & 63));
    at[3] = (uint8_t)sequence;
    at[4] = (uint8_t)((total - 7) >> 8);
    at[5] = (uint8_t)(total - 7);
    for (i = 6; i < total; i++) at[i] = (uint8_t)(sequence * 31 + i * 7);
}

/* ---- sizes ------------------------------------------------------------------------------------- */

#define AT(type, member, word) check(offsetof(struct type, member) == 4 * (word), "layout", #type "." #member)

static void test_read_answer_layout(void)
{
    AT(scowdeck_read_answer, number, 0);
    AT(scowdeck_read_answer, kind, 1);
    AT(scowdeck_read_answer, spacecraft, 2);
    AT(scowdeck_read_answer, channel, 3);
    AT(scowdeck_read_answer, control_word_flag, 4);
    AT(scowdeck_read_answer, master_count, 5);
    AT(scowdeck_read_answer, channel_count, 6);
    AT(scowdeck_read_answer, secondary_header_flag, 7);
    AT(scowdeck_read_answer, synchronisation_flag, 8);
    AT(scowdeck_read_answer, order_flag, 9);
    AT(scowdeck_read_answer, segment_id, 10);
    AT(scowdeck_read_answer, pointer, 11);
    AT(scowdeck_read_answer, control_word, 12);
    AT(scowdeck_read_answer, gap, 13);
    AT(scowdeck_read_answer, delivered, 14);
    AT(scowdeck_read_answer, idle, 15);
    AT(scowdeck_read_answer, broken, 16);
    AT(scowdeck_read_answer, disagreement, 17);
    AT(scowdeck_read_answer, foreign, 18);
    AT(scowdeck_read_answer, oversize, 19);
}

static void test_open_answer_layout(void)
{
    check(sizeof(struct scowdeck_open_answer) == 56, "layout", "open answer");
    AT(scowdeck_open_answer, number, 0);
    AT(scowdeck_open_answer, spacecraft, 1);
    AT(scowdeck_open_answer, channel, 2);
    AT(scowdeck_open_answer, control_word_flag, 3);
    AT(scowdeck_open_answer, master_count, 4);
    AT(scowdeck_open_answer, channel_count, 5);
    AT(scowdeck_open_answer, secondary_header_flag, 6);
    AT(scowdeck_open_answer, synchronisation_flag, 7);
    AT(scowdeck_open_answer, order_flag, 8);
    AT(scowdeck_open_answer, segment_id, 9);
    AT(scowdeck_open_answer, pointer, 10);
    AT(scowdeck_open_answer, control_word, 11);
    AT(scowdeck_open_answer, data_place, 12);
    AT(scowdeck_open_answer, data_octets, 13);
}

static void test_layout(void)
{
    check(sizeof(struct scowdeck_channel) == 16, "layout", "channel");
    check(sizeof(struct scowdeck_record) == 128, "layout", "record");
    check(sizeof(struct scowdeck_desk) == 128 + 32768, "layout", "desk");
    check(sizeof(struct scowdeck_read_answer) == 80, "layout", "read answer");
    check(sizeof(struct scowdeck_write_answer) == 20, "layout", "write answer");
    check(sizeof(struct scowdeck_busy_answer) == 12, "layout", "busy answer");
    AT(scowdeck_channel, heard, 0);
    AT(scowdeck_channel, last_count, 1);
    AT(scowdeck_channel, state, 2);
    AT(scowdeck_channel, number, 3);
    AT(scowdeck_desk, store, 32);
    AT(scowdeck_write_answer, number, 0);
    AT(scowdeck_write_answer, offset, 1);
    AT(scowdeck_write_answer, left_over, 2);
    AT(scowdeck_write_answer, master_count, 3);
    AT(scowdeck_write_answer, channel_count, 4);
    AT(scowdeck_busy_answer, mask, 0);
    AT(scowdeck_busy_answer, ones, 1);
    AT(scowdeck_busy_answer, lowest, 2);
    test_read_answer_layout();
    test_open_answer_layout();
    check(SCOWDECK_STORE_OCTETS == SCOWDECK_CHANNELS * SCOWDECK_PART_OCTETS, "sizes", "store");
    check(SCOWDECK_OUTPUT_OCTETS == SCOWDECK_PACKET_MAX + SCOWDECK_LENGTH_MAX, "sizes", "output");
    check(SCOWDECK_RECORD_WORDS == SCOWDECK_CHANNELS * SCOWDECK_CHANNEL_WORDS, "sizes", "record");
}

/* ---- error control ----------------------------------------------------------------------------- */

static void test_syndrome(void)
{
    static const uint8_t digits[] = "123456789";
    static const uint8_t zeros[] = {0, 0, 0};
    static const uint8_t abcdef[] = {0xAB, 0xCD, 0xEF, 0x01};
    static const uint8_t fourteen[] = {0x14, 0x56, 0xF8, 0x9A, 0x00, 0x01};
    static uint8_t octets[2050];
    size_t length, i;
    check(scowdeck_syndrome(digits, 9) == 0x29B1, "syndrome", "123456789");
    check(scowdeck_syndrome(digits, 0) == 0xFFFF, "syndrome", "empty");
    check(scowdeck_syndrome(NULL, 0) == 0xFFFF, "syndrome", "NULL");
    check(scowdeck_syndrome(zeros, 2) == 0x1D0F, "syndrome", "two zeros");
    check(scowdeck_syndrome(zeros, 3) == 0xCC9C, "syndrome", "three zeros");
    check(scowdeck_syndrome(abcdef, 4) == 0x04A2, "syndrome", "ABCDEF01");
    check(scowdeck_syndrome(fourteen, 6) == 0x7FD5, "syndrome", "1456F89A0001");
    for (length = 0; length <= 2046; length += length < 300 ? 1 : 97) {
        for (i = 0; i < length; i++) octets[i] = (uint8_t)chance(256);
        check(scowdeck_syndrome(octets, length) == divided(octets, length), "syndrome", "long division");
        close_check(octets, length + 2);
        check(scowdeck_syndrome(octets, length + 2) == 0, "syndrome", "own field");
        octets[length + 1] ^= 1;
        check(scowdeck_syndrome(octets, length + 2) != 0, "syndrome", "another field");
    }
}

/* ---- the bench --------------------------------------------------------------------------------- */

static const uint8_t run1[8] = {0x01, 0x23, 0xC0, 0x05, 0x00, 0x01, 0xDE, 0xAD};
static const uint8_t b1[20] = {0x0A, 0xB6, 0x09, 0x04, 0x18, 0x00, 0x01, 0x23, 0xC0, 0x05,
                               0x00, 0x01, 0xDE, 0xAD, 0x07, 0xFF, 0xC0, 0x00, 0x00, 0x00};
static const uint8_t b2[20] = {0x0A, 0xB6, 0x0A, 0x05, 0x18, 0x01, 0x55, 0x07, 0xFF, 0xC0,
                               0x00, 0x00, 0x06, 0x55, 0x55, 0x55, 0x55, 0x55, 0x55, 0x55};
static const uint8_t b3[20] = {0x0A, 0xB6, 0x0B, 0x06, 0x1F, 0xFE, 0x55, 0x55, 0x55, 0x55,
                               0x55, 0x55, 0x55, 0x55, 0x55, 0x55, 0x55, 0x55, 0x55, 0x55};

static void write_bench(const char *name, struct writing w, const uint8_t *run, const uint8_t frame[20], uint32_t offset, uint32_t left_over)
{
    uint32_t words[5];
    words[0] = 0;
    words[1] = offset;
    words[2] = left_over;
    words[3] = (w.master_count + 1u) % 256;
    words[4] = (w.channel_count + 1u) % 256;
    new_world();
    if (run != NULL) memcpy(now.input, run, w.run_octets);
    then = now;
    memcpy(then.output, frame, 20);
    write_gives(name, w, words);
}

static void test_bench_writing(void)
{
    struct writing w = bench_writing();
    w.run_octets = 8;
    write_bench("B1 written", w, run1, b1, 8, 1);
    w.run_octets = 0;
    w.master_count = 10;
    w.channel_count = 5;
    w.left_over = 1;
    write_bench("B2 written", w, NULL, b2, 0, 0);
    w.master_count = 11;
    w.channel_count = 6;
    w.left_over = 0;
    write_bench("B3 written", w, NULL, b3, 0, 0);
}

static void test_counts_wrap(void)
{
    struct writing w = bench_writing();
    uint8_t frame[20];
    memcpy(frame, b3, 20);
    frame[2] = w.master_count = 255;
    frame[3] = w.channel_count = 254;
    write_bench("master count 255", w, NULL, frame, 0, 0);
    frame[2] = w.master_count = 0;
    frame[3] = w.channel_count = 255;
    write_bench("channel count 255", w, NULL, frame, 0, 0);
}

/* A count is 8 bits of its register or stack slot, whatever the caller left in the others. */
static void test_narrow_counts(void)
{
    volatile uint32_t master_count = 0xFFFFFF09u, channel_count = 0x12345604u;
    uint32_t words[5] = {0, 8, 1, 10, 5};
    new_world();
    memcpy(now.input, run1, 8);
    then = now;
    memcpy(then.output, b1, 20);
    memcpy(then.answer, words, sizeof words);
    check(scowdeck_write(20, 171, 0, 3, (uint8_t)master_count, (uint8_t)channel_count, 0, 0, now.input, 8, 0, 0, now.output, 20,
                         now.answer, SCOWDECK_WRITE_WORDS) == 0, "narrow counts", "returned number");
    compare_worlds("narrow counts");
}

/* What an accepted frame of the bench is expected to say. */
struct told {
    uint32_t kind, master_count, channel_count, pointer, gap, delivered, idle, broken, disagreement, foreign, oversize;
};

static struct told telling(uint32_t kind, uint32_t master_count, uint32_t channel_count, uint32_t pointer)
{
    struct told t = {0, 0, 0, 0, 0, 0, 0, 0, 0, 0, 0};
    t.kind = kind;
    t.master_count = master_count;
    t.channel_count = channel_count;
    t.pointer = pointer;
    return t;
}

static void spell(struct told t, uint32_t words[20])
{
    uint32_t w[20] = {0, t.kind, 171, 3, 0, t.master_count, t.channel_count, 0, 0, 0, 3, t.pointer, 0, t.gap,
                      t.delivered, t.idle, t.broken, t.disagreement, t.foreign, t.oversize};
    memcpy(words, w, sizeof w);
}

/* Reads a frame of the bench on channel 3 and expects state, number and the octets held. */
static void read_bench(const char *name, const uint8_t frame[20], struct told t, uint32_t state, uint32_t number,
                       const uint8_t *held, const uint8_t *packets, size_t octets)
{
    uint32_t words[20];
    memcpy(now.input, frame, 20);
    then = now;
    put_channel(then.record, 3, 1, frame[3], state, number);
    if (held != NULL) memcpy(then.store + 3 * 4096, held, number);
    if (packets != NULL) memcpy(then.output, packets, octets);
    spell(t, words);
    read_gives(name, bench_reading(), words);
}

static void test_bench_reading(void)
{
    struct told first = telling(SCOWDECK_KIND_PACKETS, 9, 4, 0);
    struct told second = telling(SCOWDECK_KIND_PACKETS, 10, 5, 1);
    struct told third = telling(SCOWDECK_KIND_IDLE, 11, 6, 2046);
    first.delivered = 1;
    second.idle = 2;
    new_world();
    read_bench("B4, B1 read", b1, first, SCOWDECK_GATHERING, 6, b1 + 14, run1, 8);
    read_bench("B4, B2 read", b2, second, SCOWDECK_GATHERING, 0, NULL, NULL, 0);
    read_bench("B4, B3 read", b3, third, SCOWDECK_HUNTING, 0, NULL, NULL, 0);
    new_world();
    read_bench("B4, B1 read again", b1, first, SCOWDECK_GATHERING, 6, b1 + 14, run1, 8);
    third.gap = 1;
    third.broken = 1;
    read_bench("B4, B3 without B2", b3, third, SCOWDECK_HUNTING, 0, NULL, NULL, 0);
}

static void test_bench_gap(void)
{
    uint8_t frame[20];
    struct told t = telling(SCOWDECK_KIND_PACKETS, 9, 1, 0);
    unsigned last;
    memcpy(frame, b1, 20);
    frame[3] = 1;
    t.delivered = 1;
    for (last = 0; last < 256; last++) {
        new_world();
        put_channel(now.record, 3, 1, last, SCOWDECK_HUNTING, 0);
        t.gap = (256 + 1 - last - 1) % 256;
        if (last == 254) check(t.gap == 2, "B5", "the paper's gap");
        read_bench("B5", frame, t, SCOWDECK_GATHERING, 6, b1 + 14, run1, 8);
    }
}

static void test_bench_pointer(void)
{
    uint8_t frame[20];
    memcpy(frame, b1, 20);
    frame[5] = 14;
    new_world();
    memcpy(now.input, frame, 20);
    read_refuses("B6, pointer 14", bench_reading(), SCOWDECK_POINTER_PLACE);
    frame[5] = 13;
    read_bench("B6, pointer 13", frame, telling(SCOWDECK_KIND_PACKETS, 9, 4, 13), SCOWDECK_GATHERING, 1, b1 + 19, NULL, 0);
}

static void test_bench_set_up(void)
{
    static const uint32_t lengths[] = {0, 12, 2049, 2068, 65536 + 20, 0x80000014u, 0xFFFFFFFFu};
    size_t i;
    for (i = 0; i < sizeof lengths / sizeof lengths[0]; i++) {
        struct reading r = bench_reading();
        struct writing w = bench_writing();
        new_world();
        r.length = w.length = lengths[i];
        r.frame_octets = lengths[i] < 3000 ? lengths[i] : 20;
        w.output_octets = r.frame_octets;
        read_refuses("B7, reading", r, SCOWDECK_SET_UP_RANGE);
        write_refuses("B7, writing", w, SCOWDECK_SET_UP_RANGE);
    }
    for (i = 1024; i < 1026; i++) {
        struct reading r = bench_reading();
        struct writing w = bench_writing();
        r.spacecraft = w.spacecraft = i == 1024 ? 1024 : 0x10000u + 171;
        read_refuses("B7, spacecraft, reading", r, SCOWDECK_SET_UP_RANGE);
        write_refuses("B7, spacecraft, writing", w, SCOWDECK_SET_UP_RANGE);
    }
}

/* D = 2,042 finishes at most 292: one octet of a held packet, then 291 whole ones, then 4 octets. */
static void test_bench_most(void)
{
    static uint8_t run[293 * 7];
    struct reading r = bench_reading();
    struct told t = telling(SCOWDECK_KIND_PACKETS, 9, 4, 1);
    uint32_t words[20], i;
    for (i = 0; i < 293; i++) lay_packet(run + 7 * i, 5, 7, i);
    new_world();
    r.length = 2048;
    r.frame_octets = 2048;
    put_channel(now.record, 3, 1, 3, SCOWDECK_GATHERING, 6);
    memcpy(now.store + 3 * 4096, run, 6);
    memcpy(now.input, b1, 6);
    now.input[5] = 1;
    memcpy(now.input + 6, run + 6, 2042);
    then = now;
    t.delivered = 292;
    memcpy(then.output, run, 292 * 7);
    memcpy(then.store + 3 * 4096, run + 292 * 7, 4);
    put_channel(then.record, 3, 1, 4, SCOWDECK_GATHERING, 4);
    spell(t, words);
    read_gives("B8", r, words);
}

/* ---- the steps: foreign, oversize, disagreement, private ---------------------------------------- */

static void test_foreign(void)
{
    uint8_t frame[20];
    struct told t = telling(SCOWDECK_KIND_PACKETS, 9, 4, 0);
    memcpy(frame, b1, 20);
    frame[14] = 0x27;
    t.delivered = 1;
    t.foreign = 1;
    new_world();
    read_bench("foreign", frame, t, SCOWDECK_HUNTING, 0, NULL, run1, 8);
}

static void test_oversize(void)
{
    uint8_t frame[20];
    struct told t = telling(SCOWDECK_KIND_PACKETS, 9, 4, 0);
    memcpy(frame, b1, 20);
    lay_packet(frame + 6, 5, 14, 0);
    frame[10] = 0x0F; /* 4,090 + 7 = 4,097 octets in all */
    frame[11] = 0xFA;
    t.oversize = 1;
    new_world();
    read_bench("oversize", frame, t, SCOWDECK_SKIPPING, 4097 - 14, NULL, NULL, 0);
    put_channel(now.record, 3, 1, 3, SCOWDECK_SKIPPING, 6);
    memcpy(frame, b1, 20);
    memcpy(frame + 12, run1, 8);
    frame[5] = 6;
    t = telling(SCOWDECK_KIND_PACKETS, 9, 4, 6);
    t.delivered = 1;
    read_bench("a skip ends", frame, t, SCOWDECK_GATHERING, 0, NULL, run1, 8);
    put_channel(now.record, 3, 1, 3, SCOWDECK_SKIPPING, 14);
    frame[4] = 0x1F;
    frame[5] = 0xFF;
    read_bench("a skip ends at D", frame, telling(SCOWDECK_KIND_PACKETS, 9, 4, 2047), SCOWDECK_GATHERING, 0, NULL, NULL, 0);
}

static void test_disagreement(void)
{
    uint8_t frame[20];
    struct told t = telling(SCOWDECK_KIND_PACKETS, 9, 4, 0);
    memcpy(frame, b1, 20);
    new_world();
    put_channel(now.record, 3, 1, 3, SCOWDECK_GATHERING, 3);
    memcpy(now.store + 3 * 4096, run1, 3);
    t.broken = 1;
    t.disagreement = 1;
    t.delivered = 1;
    read_bench("disagreement", frame, t, SCOWDECK_GATHERING, 6, b1 + 14, run1, 8);
    put_channel(now.record, 3, 1, 3, SCOWDECK_GATHERING, 0);
    frame[4] = 0x1F;
    frame[5] = 0xFF;
    t = telling(SCOWDECK_KIND_PACKETS, 9, 4, 2047);
    t.disagreement = 1;
    read_bench("disagreement, none under way", frame, t, SCOWDECK_HUNTING, 0, NULL, NULL, 0);
}

/* Tests 11 and 12 do not look at private frames. */
static void test_private(void)
{
    uint32_t words[20] = {0, 3, 171, 3, 0, 9, 4, 0, 1, 1, 2, 1000, 0, 0, 0, 0, 1, 0, 0, 0};
    new_world();
    put_channel(now.record, 3, 1, 3, SCOWDECK_SKIPPING, 65536);
    memcpy(now.input, b1, 20);
    now.input[4] = 0x40 | 0x20 | 0x10 | 3;
    now.input[5] = 0xE8;
    then = now;
    put_channel(then.record, 3, 1, 4, SCOWDECK_HUNTING, 0);
    read_gives("private", bench_reading(), words);
}

/* Secondary header, control word and error control at once: D = 20 - 6 - 2 - 4 - 2. */
static void test_whole_header(void)
{
    static const uint8_t body[14] = {0x01, 0x77, 0x66, 0x04, 0x21, 0x43, 0xC0, 0x00, 0x89, 0xAB, 0xCD, 0xEF};
    static const uint32_t yes[] = {1, 2, 256, 0x80000000u};
    uint32_t words[20] = {0, 1, 682, 5, 1, 255, 128, 1, 0, 0, 3, 1, 0x89ABCDEFu, 0, 0, 0, 0, 0, 0, 0};
    struct reading r = bench_reading();
    size_t i;
    r.spacecraft = 682;
    for (i = 0; i < 4; i++) {
        r.error_control = yes[i];
        new_world();
        now.input[0] = 0x2A;
        now.input[1] = 0xA0 | 5 << 1 | 1;
        now.input[2] = 255;
        now.input[3] = 128;
        now.input[4] = 0x80 | 0x18;
        now.input[5] = 1;
        memcpy(now.input + 6, body, 14);
        close_check(now.input, 20);
        then = now;
        put_channel(then.record, 5, 1, 128, SCOWDECK_GATHERING, 5);
        memcpy(then.store + 5 * 4096, body + 3, 5);
        read_gives("secondary header, control word, error control", r, words);
        now.input[19] ^= 1;
        read_refuses("damaged", r, SCOWDECK_FRAME_CHECK);
    }
}

/* ---- refusals in order ------------------------------------------------------------------------- */

/* A frame of 20 octets with every fault of rows 7 to 12 but the first `mended` ones. */
static void faulty_frame(uint8_t *f, int mended)
{
    memcpy(f, b1, 20);
    f[0] = (uint8_t)(mended >= 1 ? 0x0A : 0x4A);
    f[1] = (uint8_t)(mended >= 2 ? 0xB6 : 0xC6);
    f[4] = (uint8_t)(mended >= 5 ? 0x98 : 0xB8);
    f[5] = (uint8_t)(mended >= 6 ? 10 : 11);
    f[6] = (uint8_t)(mended >= 4 ? 0x00 : mended == 3 ? 0x3F : 0x7F);
    close_check(f, 20);
}

/* Everything is wrong at first; each round mends the cause that was given. */
static void test_reading_order(void)
{
    struct reading r = {2049, 171, 1, 31, 32767, 6143, 21, 20};
    int mended;
    new_world();
    faulty_frame(now.input, 0);
    now.input[19] ^= 0x80;
    read_refuses("order, 1", r, 1);
    r.length = 20;
    r.spacecraft = 1024;
    read_refuses("order, 1 for the spacecraft", r, 1);
    r.spacecraft = 171;
    read_refuses("order, 2", r, 2);
    r.store_octets = 32768;
    read_refuses("order, 3", r, 3);
    r.output_octets = 6144;
    read_refuses("order, 4", r, 4);
    r.record_words = 32;
    read_refuses("order, 5", r, 5);
    r.frame_octets = 20;
    read_refuses("order, 6", r, 6);
    for (mended = 0; mended < 6; mended++) {
        faulty_frame(now.input, mended);
        read_refuses("order, 7 to 12", r, (uint32_t)(7 + mended));
    }
    faulty_frame(now.input, 6);
    now.input[4] = 0x90;
    close_check(now.input, 20);
    read_refuses("11 for the segment id", r, 11);
    faulty_frame(now.input, 6);
    check(call_read(r) == 0, "order", "all mended");
}

static void test_slice_lengths(void)
{
    static const size_t stores[] = {0, 1, 4096, 32767, 32769};
    static const size_t outputs[] = {0, 1, 20, 6143};
    static const size_t frames[] = {0, 1, 6, 19, 21, 2048};
    static const size_t records[] = {0, 1, 4, 28, 31, 33, 48};
    struct reading r;
    size_t i;
    new_world();
    memcpy(now.input, b1, 20);
    for (i = 0; i < sizeof stores / sizeof stores[0]; i++) {
        r = bench_reading();
        r.store_octets = stores[i];
        read_refuses("store", r, SCOWDECK_STORE_LENGTH);
    }
    for (i = 0; i < sizeof outputs / sizeof outputs[0]; i++) {
        r = bench_reading();
        r.output_octets = outputs[i];
        read_refuses("output", r, SCOWDECK_OUTPUT_SHORT);
    }
    for (i = 0; i < sizeof records / sizeof records[0]; i++) {
        r = bench_reading();
        r.record_words = records[i];
        read_refuses("record", r, SCOWDECK_BROKEN_RECORD);
    }
    for (i = 0; i < sizeof frames / sizeof frames[0]; i++) {
        r = bench_reading();
        r.frame_octets = frames[i];
        read_refuses("frame", r, SCOWDECK_FRAME_LENGTH);
    }
}

static void test_all_empty(void)
{
    struct reading r = {20, 171, 0, 0, 0, 0, 0, 0};
    struct writing w = {20, 171, 0, 3, 9, 4, 0, 0, 0, 0, 0, 0, 0};
    struct opening o = {20, 171, 0, 0, 0};
    struct closing c = {20, 171, 0, 3, 9, 4, 0, 0, 0, 0};
    new_world();
    read_refuses("all slices NULL", r, SCOWDECK_STORE_LENGTH);
    write_refuses("all slices NULL", w, SCOWDECK_OUTPUT_LENGTH);
    open_refuses("all slices NULL", o, SCOWDECK_FRAME_LENGTH);
    close_refuses("all slices NULL", c, SCOWDECK_OUTPUT_LENGTH);
    r.length = w.length = o.length = c.length = 0;
    read_refuses("all slices NULL", r, SCOWDECK_SET_UP_RANGE);
    write_refuses("all slices NULL", w, SCOWDECK_SET_UP_RANGE);
    open_refuses("all slices NULL", o, SCOWDECK_SET_UP_RANGE);
    close_refuses("all slices NULL", c, SCOWDECK_SET_UP_RANGE);
    then = now;
    check(scowdeck_busy(NULL, 0, NULL, 0) == 0, "all slices NULL", "busy");
    compare_worlds("busy of nothing");
}

static void test_writing_order(void)
{
    struct writing w = {12, 1024, 0, 8, 200, 255, 0, 0, 65537, 65538, 7, 19, 5};
    new_world();
    memset(now.input, 0, 65537);
    write_refuses("order, 1", w, 1);
    w.length = 20;
    write_refuses("order, 1 for the spacecraft", w, 1);
    w.spacecraft = 1023;
    write_refuses("order, 20", w, 20);
    w.channel = 7;
    write_refuses("order, 21", w, 21);
    w.run_octets = 65536; /* 9,362 packets of 7 octets and two more octets */
    write_refuses("order, 22", w, 22);
    w.run_octets = 65534;
    write_refuses("order, 23", w, 23);
    w.offset = 65534;
    write_refuses("order, 24", w, 24);
    w.left_over = 6;
    write_refuses("order, 25", w, 25);
    w.output_octets = 21;
    write_refuses("25, too long", w, 25);
    w.output_octets = 20;
    check(call_write(w) == 0, "order", "all mended");
}

static void test_writing_causes(void)
{
    struct writing w = bench_writing();
    new_world();
    memcpy(now.input, run1, 8);
    w.run_octets = 8;
    w.channel = 0xFFFFFFFFu;
    write_refuses("channel", w, 20);
    w.channel = 3;
    w.offset = 9;
    write_refuses("offset 1 past", w, 23);
    w.offset = 0xFFFFFFFFu;
    write_refuses("greatest offset", w, 23);
    w.offset = 4;
    w.left_over = 1;
    write_refuses("left-over inside the run", w, 24);
    w.left_over = 0xFFFFFFFFu;
    write_refuses("greatest left-over", w, 24);
    w.offset = w.left_over = 0;
    w.run_octets = 7;
    write_refuses("a cut packet", w, 22);
    w.run_octets = 5;
    write_refuses("a cut header", w, 22);
    w.run_octets = 8;
    now.input[0] = 0x21;
    write_refuses("another version", w, 22);
}

/* ---- odd words --------------------------------------------------------------------------------- */

struct odd {
    const char *name;
    uint32_t heard, last, state, number;
    uint8_t held[6];
    int breaks;
};

static const struct odd odds[] = {
    {"heard 2", 2, 0, 0, 0, {0, 0, 0, 0, 0, 0}, 1},
    {"heard all ones", 0xFFFFFFFFu, 0, 0, 0, {0, 0, 0, 0, 0, 0}, 1},
    {"heard 256", 256, 0, 0, 0, {0, 0, 0, 0, 0, 0}, 1},
    {"count 256", 1, 256, 0, 0, {0, 0, 0, 0, 0, 0}, 1},
    {"count 256, unheard", 0, 256, 0, 0, {0, 0, 0, 0, 0, 0}, 1},
    {"count all ones", 1, 0xFFFFFFFFu, 1, 0, {0, 0, 0, 0, 0, 0}, 1},
    {"state 3", 1, 0, 3, 0, {0, 0, 0, 0, 0, 0}, 1},
    {"state 256", 1, 0, 256, 0, {0, 0, 0, 0, 0, 0}, 1},
    {"state 258", 1, 0, 258, 1, {0, 0, 0, 0, 0, 0}, 1},
    {"hunting 1", 1, 0, 0, 1, {0, 0, 0, 0, 0, 0}, 1},
    {"hunting, unheard, all ones", 0, 0, 0, 0xFFFFFFFFu, {0, 0, 0, 0, 0, 0}, 1},
    {"unheard and gathering 0", 0, 0, 1, 0, {0, 0, 0, 0, 0, 0}, 1},
    {"unheard and gathering 3", 0, 0, 1, 3, {0, 0, 0, 0, 0, 0}, 1},
    {"unheard and skipping", 0, 0, 2, 9, {0, 0, 0, 0, 0, 0}, 1},
    {"gathering 4,096", 1, 0, 1, 4096, {0, 0, 0, 0, 0x0F, 0xF9}, 1},
    {"gathering 65,536", 1, 0, 1, 65536, {0, 0, 0, 0, 0x0F, 0xF9}, 1},
    {"gathering 65,542", 1, 0, 1, 65542, {0, 0, 0, 0, 0x0F, 0xF9}, 1},
    {"gathering all ones", 1, 0, 1, 0xFFFFFFFFu, {0, 0, 0, 0, 0x0F, 0xF9}, 1},
    {"skipping 0", 1, 0, 2, 0, {0, 0, 0, 0, 0, 0}, 1},
    {"skipping 65,537", 1, 0, 2, 65537, {0, 0, 0, 0, 0, 0}, 1},
    {"skipping all ones", 1, 0, 2, 0xFFFFFFFFu, {0, 0, 0, 0, 0, 0}, 1},
    {"held, another version", 1, 0, 1, 1, {0x20, 0, 0, 0, 0, 0}, 1},
    {"held, version 7", 1, 0, 1, 5, {0xE7, 0, 0, 0, 0, 0}, 1},
    {"held, total 7 of 7", 1, 0, 1, 7, {0, 0, 0, 0, 0, 0}, 1},
    {"held, total 8 of 9", 1, 0, 1, 9, {0, 0, 0, 0, 0, 1}, 1},
    {"held, total 4,097", 1, 0, 1, 6, {0, 0, 0, 0, 0x0F, 0xFA}, 1},
    {"held, total 65,542", 1, 0, 1, 4095, {0, 0, 0, 0, 0xFF, 0xFF}, 1},
    {"unheard, last 255", 0, 255, 0, 0, {0xFF, 0, 0, 0, 0, 0}, 0},
    {"heard, hunting", 1, 255, 0, 0, {0xFF, 0, 0, 0, 0, 0}, 0},
    {"gathering 0", 1, 0, 1, 0, {0xFF, 0, 0, 0, 0, 0}, 0},
    {"gathering 1", 1, 0, 1, 1, {0x1F, 0xFF, 0, 0, 0xFF, 0xFF}, 0},
    {"gathering 5", 1, 0, 1, 5, {0, 0, 0, 0, 0xFF, 0xFF}, 0},
    {"gathering 6 of 7", 1, 0, 1, 6, {0, 0, 0, 0, 0, 0}, 0},
    {"gathering 6 of 4,096", 1, 0, 1, 6, {0, 0, 0, 0, 0x0F, 0xF9}, 0},
    {"gathering 4,095 of 4,096", 1, 0, 1, 4095, {0, 0, 0, 0, 0x0F, 0xF9}, 0},
    {"skipping 1", 1, 0, 2, 1, {0xFF, 0, 0, 0, 0, 0}, 0},
    {"skipping 65,536", 1, 0, 2, 65536, {0xFF, 0, 0, 0, 0, 0}, 0},
};

/* Each odd channel in each place: the frame is of channel 3 and is refused by 4, or else accepted
 * with the other channels' words as they were; with a frame that is too short: 4, or else 5. */
static void test_odd_words(void)
{
    size_t i;
    unsigned v;
    for (i = 0; i < sizeof odds / sizeof odds[0]; i++) {
        for (v = 0; v < 8; v++) {
            const struct odd *o = &odds[i];
            struct reading r = bench_reading();
            struct told t = telling(SCOWDECK_KIND_PACKETS, 9, 4, 0);
            new_world();
            put_channel(now.record, v, o->heard, o->last, o->state, o->number);
            memcpy(now.store + 4096 * v, o->held, 6);
            memcpy(now.input, b1, 20);
            r.frame_octets = 19;
            read_refuses(o->name, r, o->breaks ? SCOWDECK_BROKEN_RECORD : SCOWDECK_FRAME_LENGTH);
            r.frame_octets = 20;
            t.delivered = 1;
            if (o->breaks) read_refuses(o->name, r, SCOWDECK_BROKEN_RECORD);
            else if (v != 3) read_bench(o->name, b1, t, SCOWDECK_GATHERING, 6, b1 + 14, run1, 8);
            else check(call_read(r) == 0, o->name, "accepted");
        }
    }
}

/* ---- answers that are shorter or longer --------------------------------------------------------- */

static void test_answer_lengths(void)
{
    uint32_t words[20], written[5] = {0, 8, 1, 10, 5};
    struct told t = telling(SCOWDECK_KIND_PACKETS, 9, 4, 0);
    size_t n;
    t.delivered = 1;
    spell(t, words);
    for (n = 0; n <= ANSWER_ROOM; n++) {
        struct reading r = bench_reading();
        struct writing w = bench_writing();
        r.answer_words = w.answer_words = n;
        new_world();
        memcpy(now.input, b1, 20);
        then = now;
        put_channel(then.record, 3, 1, 4, SCOWDECK_GATHERING, 6);
        memcpy(then.store + 3 * 4096, b1 + 14, 6);
        memcpy(then.output, run1, 8);
        read_gives("answer of an accepted frame", r, words);
        r.spacecraft = 170;
        read_refuses("answer of a refused frame", r, SCOWDECK_OTHER_SPACECRAFT);
        memcpy(now.input, run1, 8);
        w.run_octets = 8;
        then = now;
        memcpy(then.output, b1, 20);
        write_gives("answer of a writing", w, written);
        w.output_octets = 21;
        write_refuses("answer of a refused writing", w, SCOWDECK_OUTPUT_LENGTH);
    }
}

/* ---- busy -------------------------------------------------------------------------------------- */

static void busy_gives(const char *name, size_t record_words, size_t answer_words, uint32_t mask, uint32_t ones, uint32_t lowest)
{
    uint32_t words[3], said;
    words[0] = mask;
    words[1] = ones;
    words[2] = lowest;
    then = now;
    expect_words(words, SCOWDECK_BUSY_WORDS, answer_words);
    said = scowdeck_busy(LENT(now.record, record_words), record_words, LENT(now.answer, answer_words), answer_words);
    check(said == mask, name, "returned mask");
    compare_worlds(name);
}

static void test_busy(void)
{
    unsigned mask, v;
    size_t n;
    new_world();
    for (n = 0; n <= ANSWER_ROOM; n++) busy_gives("busy, fresh", 32, n, 0, 0, 8);
    for (mask = 0; mask < 256; mask++) {
        uint32_t ones = 0, lowest = 8;
        for (v = 8; v-- > 0;) {
            int busy = mask >> v & 1;
            put_channel(now.record, v, chance(3), chance(300), busy ? 1 + v % 2 : v % 2, busy ? 1 + chance(70000) : 0);
            if (busy) ones++;
            if (busy) lowest = v;
        }
        busy_gives("busy, every mask", 32, 3, mask, ones, lowest);
    }
}

static void test_busy_odd(void)
{
    size_t n;
    unsigned v;
    new_world();
    put_channel(now.record, 0, 7, 999, 3, 5);
    put_channel(now.record, 1, 7, 999, 2, 0);
    put_channel(now.record, 2, 7, 999, 1, 0xFFFFFFFFu);
    put_channel(now.record, 3, 7, 999, 1, 0);
    put_channel(now.record, 4, 7, 999, 0, 5);
    put_channel(now.record, 5, 7, 999, 257, 5);
    put_channel(now.record, 6, 7, 999, 258, 5);
    put_channel(now.record, 7, 7, 999, 0xFFFFFFFFu, 5);
    busy_gives("busy, odd words", 32, 3, 6, 2, 1);
    for (v = 0; v < RECORD_ROOM / 4; v++) put_channel(now.record, v, 0, 0, SCOWDECK_SKIPPING, 1);
    for (n = 0; n <= RECORD_ROOM; n++) {
        uint32_t whole = n / 4 < 8 ? (uint32_t)(n / 4) : 8;
        busy_gives("busy, any number of words", n, 3, (1u << whole) - 1, whole, whole ? 0 : 8);
    }
}

/* ---- what was written reads back ---------------------------------------------------------------- */

/* A run of packets of 7 to 160 octets, some idle; gives its length, and those not idle in `wanted`. */
static size_t make_run(uint8_t *run, uint8_t *wanted, size_t *wanted_octets)
{
    uint32_t i, packets = chance(12);
    size_t at = 0;
    *wanted_octets = 0;
    for (i = 0; i < packets; i++) {
        size_t total = 7 + chance(chance(2) ? 4 : 154);
        uint32_t application = chance(4) ? chance(2047) : 2047;
        lay_packet(run + at, application, total, i);
        if (application != 2047) memcpy(wanted + *wanted_octets, run + at, total);
        if (application != 2047) *wanted_octets += total;
        at += total;
    }
    return at;
}

static struct scowdeck_desk desk;
static uint8_t run_now[2048], wanted[2048], got[2048 + 6144], frame_now[2048];

/* Writes the run from the place given to its end and reads every frame; false if something is refused
 * or a packet is lost. `place` is handed on from frame to frame. */
static int there_and_back(struct writing w, struct scowdeck_write_answer *place, uint32_t spare)
{
    size_t wanted_octets, filled = 0;
    size_t run_octets = make_run(run_now, wanted, &wanted_octets);
    struct scowdeck_read_answer a;
    uint32_t i;
    place->offset = 0;
    do {
        if (scowdeck_write(w.length, w.spacecraft, w.error_control, w.channel, (uint8_t)place->master_count,
                           (uint8_t)place->channel_count, w.has_word, w.word, run_now, run_octets, place->offset, place->left_over,
                           frame_now, w.length, (uint32_t *)place, SCOWDECK_WRITE_WORDS) != SCOWDECK_ACCEPTED) return 0;
        if (scowdeck_read(w.length, w.spacecraft, w.error_control, (uint32_t *)&desk.record, SCOWDECK_RECORD_WORDS,
                          desk.store, sizeof desk.store, got + filled, sizeof got - filled, frame_now, w.length,
                          (uint32_t *)&a, SCOWDECK_READ_WORDS) != SCOWDECK_ACCEPTED) return 0;
        if (a.gap || a.broken || a.disagreement || a.foreign || a.oversize) return 0;
        if (a.control_word != (w.has_word ? w.word : 0) || a.channel != w.channel) return 0;
        for (i = 0; i < a.delivered; i++) filled += 7u + 256u * got[filled + 4] + got[filled + 5];
    } while (place->offset != run_octets || spare-- > 0);
    return filled == wanted_octets && memcmp(got, wanted, filled) == 0;
}

static void test_there_and_back(void)
{
    uint32_t length, error_control, has_word, channel;
    for (length = 13; length <= 2048; length += length < 60 ? 1 : 199) {
        for (error_control = 0; error_control < 2; error_control++) {
            for (has_word = 0; has_word < 2; has_word++) {
                struct scowdeck_write_answer place[8];
                struct writing w = bench_writing();
                uint32_t round;
                w.length = length;
                w.error_control = error_control;
                w.has_word = has_word * 0x100;
                w.word = 0x80000001u + length;
                memset(&desk, 0, sizeof desk);
                memset(place, 0, sizeof place);
                for (channel = 0; channel < 8; channel++) place[channel].channel_count = chance(256);
                for (round = 0; round < 24; round++) {
                    w.channel = chance(8);
                    check(there_and_back(w, &place[w.channel], chance(3)), "there and back", "packets");
                }
            }
        }
    }
}

/* ---- opening ----------------------------------------------------------------------------------- */

static void test_open_bench(void)
{
    static const uint32_t first[14] = {0, 171, 3, 0, 9, 4, 0, 0, 0, 3, 0, 0, 6, 14};
    static const uint32_t third[14] = {0, 171, 3, 0, 11, 6, 0, 0, 0, 3, 2046, 0, 6, 14};
    static const uint32_t odd[14] = {0, 171, 3, 0, 9, 4, 0, 1, 1, 2, 1000, 0, 6, 14};
    new_world();
    memcpy(now.input, b1, 20);
    open_gives("B1 opened", bench_opening(), first);
    memcpy(now.input, b3, 20);
    open_gives("B3 opened", bench_opening(), third);
    memcpy(now.input, b1, 20);
    now.input[4] = 0x40 | 0x20 | 0x10 | 3;
    now.input[5] = 0xE8;
    open_gives("a private frame opened", bench_opening(), odd);
}

/* Secondary header, control word and error control at once: D = 20 - 6 - 2 - 4 - 2, from octet 8 on. */
static void test_open_whole_header(void)
{
    static const uint8_t frame[18] = {0x2A, 0xAB, 255, 128, 0x98, 1, 0x01, 0x77, 0x66, 0x04, 0x21, 0x43, 0xC0, 0x00, 0x89, 0xAB, 0xCD, 0xEF};
    static const uint32_t yes[] = {1, 2, 256, 0x80000000u};
    static const uint32_t words[14] = {0, 682, 5, 1, 255, 128, 1, 0, 0, 3, 1, 0x89ABCDEFu, 8, 6};
    struct opening o = bench_opening();
    size_t i;
    o.spacecraft = 682;
    for (i = 0; i < 4; i++) {
        o.error_control = yes[i];
        new_world();
        memcpy(now.input, frame, 18);
        close_check(now.input, 20);
        open_gives("opened with all there is", o, words);
        now.input[19] ^= 1;
        open_refuses("damaged", o, SCOWDECK_FRAME_CHECK);
    }
}

/* Everything is wrong at first; each round mends the cause that was given. */
static void test_opening_order(void)
{
    struct opening o = {2049, 171, 1, 21, SCOWDECK_OPEN_WORDS};
    int mended;
    new_world();
    faulty_frame(now.input, 0);
    now.input[19] ^= 0x80;
    open_refuses("opening, order, 1", o, 1);
    o.length = 20;
    o.spacecraft = 1024;
    open_refuses("opening, order, 1 for the spacecraft", o, 1);
    o.spacecraft = 171;
    open_refuses("opening, order, 5", o, 5);
    o.frame_octets = 20;
    open_refuses("opening, order, 6", o, 6);
    for (mended = 0; mended < 6; mended++) {
        faulty_frame(now.input, mended);
        open_refuses("opening, order, 7 to 12", o, (uint32_t)(7 + mended));
    }
    faulty_frame(now.input, 6);
    now.input[4] = 0x90;
    close_check(now.input, 20);
    open_refuses("opening, 11 for the segment id", o, 11);
    faulty_frame(now.input, 6);
    check(call_open(o) == 0, "opening, order", "all mended");
}

static void test_open_lengths(void)
{
    static const uint32_t lengths[] = {0, 1, 6, 12, 2049, 65536 + 20, 0xFFFFFFFFu};
    static const size_t frames[] = {0, 1, 5, 6, 7, 19, 21, 2048};
    struct opening o;
    size_t i;
    new_world();
    memcpy(now.input, b1, 20);
    for (i = 0; i < sizeof lengths / sizeof lengths[0]; i++) {
        o = bench_opening();
        o.length = lengths[i];
        open_refuses("opening, N", o, SCOWDECK_SET_UP_RANGE);
        o.frame_octets = lengths[i] < 3000 ? lengths[i] : 20;
        open_refuses("opening, N and a frame of N", o, SCOWDECK_SET_UP_RANGE);
    }
    for (i = 0; i < sizeof frames / sizeof frames[0]; i++) {
        o = bench_opening();
        o.frame_octets = frames[i];
        open_refuses("opening, frame", o, SCOWDECK_FRAME_LENGTH);
    }
    o = bench_opening();
    o.spacecraft = 0x10000u + 171;
    open_refuses("opening, spacecraft", o, SCOWDECK_SET_UP_RANGE);
}

/* Every pointer, with D = 14; every secondary header, with D = 66 - 6 - s. */
static void test_open_edges(void)
{
    uint32_t words[14] = {0, 171, 3, 0, 9, 4, 0, 0, 0, 3, 0, 0, 6, 14}, pointer, first;
    struct opening o = bench_opening();
    new_world();
    memcpy(now.input, b1, 20);
    for (pointer = 0; pointer < 2048; pointer++) {
        now.input[4] = (uint8_t)(0x18 | pointer >> 8);
        now.input[5] = (uint8_t)pointer;
        words[10] = pointer;
        if (pointer < 14 || pointer >= 2046) open_gives("opening, a pointer", o, words);
        else open_refuses("opening, a pointer past the data field", o, SCOWDECK_POINTER_PLACE);
    }
    o.length = 66;
    o.frame_octets = 66;
    now.input[4] = 0x98;
    now.input[5] = words[10] = 0;
    for (first = 0; first < 256; first++) {
        now.input[6] = (uint8_t)first;
        words[6] = 1;
        words[12] = 6 + first + 1;
        words[13] = 66 - words[12];
        if (first > 63) open_refuses("opening, a secondary header's version", o, SCOWDECK_SECONDARY_HEADER);
        else if (first >= 59) open_refuses("opening, no data field", o, SCOWDECK_NO_DATA);
        else open_gives("opening, a secondary header", o, words);
    }
}

static void test_open_answer_lengths(void)
{
    static const uint32_t words[14] = {0, 171, 3, 0, 9, 4, 0, 0, 0, 3, 0, 0, 6, 14};
    size_t n;
    for (n = 0; n <= ANSWER_ROOM; n++) {
        struct opening o = bench_opening();
        o.answer_words = n;
        new_world();
        memcpy(now.input, b1, 20);
        open_gives("answer of an opened frame", o, words);
        o.spacecraft = 170;
        open_refuses("answer of a frame that is not opened", o, SCOWDECK_OTHER_SPACECRAFT);
        o.length = 12;
        open_refuses("answer of a set-up that does not fit", o, SCOWDECK_SET_UP_RANGE);
    }
}

/* ---- closing ----------------------------------------------------------------------------------- */

static void test_close_bench(void)
{
    struct closing c = bench_closing();
    new_world();
    memcpy(now.output + 6, b1 + 6, 14);
    close_gives("B1 closed", c, b1);
    memcpy(now.output + 6, b3 + 6, 14);
    c.master_count = 11;
    c.channel_count = 6;
    c.pointer = 2046;
    c.word = 0xFFFFFFFFu; /* not looked at */
    close_gives("B3 closed", c, b3);
}

static void test_close_refusals(void)
{
    static const uint32_t lengths[] = {0, 12, 2049, 65536 + 20, 0xFFFFFFFFu};
    static const uint32_t channels[] = {8, 9, 255, 256 + 3, 0xFFFFFFFFu};
    static const size_t outputs[] = {0, 1, 6, 19, 21, 2048};
    struct closing c = {2049, 1024, 1, 8, 9, 4, 1, 0x01020304u, 0xFFFFFFFFu, 21};
    size_t i;
    new_world();
    close_refuses("closing, order, 1", c, 1);
    c.length = 20;
    close_refuses("closing, order, 1 for the spacecraft", c, 1);
    c.spacecraft = 171;
    close_refuses("closing, order, 20", c, 20);
    c.channel = 7;
    close_refuses("closing, order, 25", c, 25);
    for (i = 0; i < sizeof lengths / sizeof lengths[0]; i++) {
        c = bench_closing();
        c.length = lengths[i];
        c.output_octets = lengths[i] < 3000 ? lengths[i] : 20;
        close_refuses("closing, N", c, SCOWDECK_SET_UP_RANGE);
    }
    for (i = 0; i < sizeof channels / sizeof channels[0]; i++) {
        c = bench_closing();
        c.channel = channels[i];
        close_refuses("closing, channel", c, SCOWDECK_CHANNEL_ABOVE);
    }
    for (i = 0; i < sizeof outputs / sizeof outputs[0]; i++) {
        c = bench_closing();
        c.output_octets = outputs[i];
        close_refuses("closing, output", c, SCOWDECK_OUTPUT_LENGTH);
    }
}

/* The frame by the paper's layout, around the data field that lies in `now.output`; gives D. */
static uint32_t lay_frame(uint8_t *frame, struct closing c)
{
    uint32_t d = c.length - 6 - (c.has_word ? 4 : 0) - (c.error_control ? 2 : 0), i;
    memcpy(frame + 6, now.output + 6, d);
    frame[0] = (uint8_t)(c.spacecraft / 16);
    frame[1] = (uint8_t)(c.spacecraft % 16 * 16 + c.channel * 2 + (c.has_word ? 1 : 0));
    frame[2] = c.master_count;
    frame[3] = c.channel_count;
    frame[4] = (uint8_t)(3 * 8 + c.pointer % 2048 / 256);
    frame[5] = (uint8_t)(c.pointer % 256);
    for (i = 0; c.has_word && i < 4; i++) frame[6 + d + i] = (uint8_t)(c.word >> (24 - 8 * i));
    if (c.error_control) close_check(frame, c.length);
    return d;
}

/* Closes a frame with any pointer and opens it: the values given come back, or 12. */
static void close_and_open(struct closing c)
{
    static uint8_t frame[2048];
    uint32_t d = lay_frame(frame, c), pointer = c.pointer % 2048;
    struct opening o = bench_opening();
    uint32_t words[14] = {0, 0, 0, 0, 0, 0, 0, 0, 0, 3, 0, 0, 6, 0};
    close_gives("closed", c, frame);
    o.length = c.length;
    o.spacecraft = c.spacecraft;
    o.error_control = c.error_control;
    o.frame_octets = c.length;
    words[1] = c.spacecraft;
    words[2] = c.channel;
    words[3] = c.has_word ? 1 : 0;
    words[4] = c.master_count;
    words[5] = c.channel_count;
    words[10] = pointer;
    words[11] = c.has_word ? c.word : 0;
    words[13] = d;
    memcpy(now.input, now.output, c.length);
    if (pointer < d || pointer >= 2046) open_gives("closed and opened", o, words);
    else open_refuses("closed with a pointer past the data field", o, SCOWDECK_POINTER_PLACE);
}

static void test_close_and_open(void)
{
    static const uint32_t pointers[] = {0, 1, 13, 14, 1000, 2045, 2046, 2047, 2048, 2049, 4095, 4096, 0x2000, 0x8000, 0xFFFFFFFFu};
    static const uint32_t lengths[] = {13, 14, 15, 16, 17, 18, 19, 20, 21, 22, 64, 256, 1115, 2047, 2048};
    uint32_t error_control, has_word;
    size_t n, i;
    for (n = 0; n < sizeof lengths / sizeof lengths[0]; n++) {
        for (error_control = 0; error_control < 2; error_control++) {
            for (has_word = 0; has_word < 2; has_word++) {
                new_world();
                for (i = 0; i < sizeof pointers / sizeof pointers[0]; i++) {
                    struct closing c = {lengths[n], chance(1024), error_control * 0x80000000u, chance(8), (uint8_t)chance(256),
                                        (uint8_t)chance(256), has_word * 0x100, 0x80000001u + chance(9999), pointers[i], lengths[n]};
                    close_and_open(c);
                }
            }
        }
    }
}

int main(void)
{
    test_layout();
    test_syndrome();
    test_bench_writing();
    test_counts_wrap();
    test_narrow_counts();
    test_bench_reading();
    test_bench_gap();
    test_bench_pointer();
    test_bench_set_up();
    test_bench_most();
    test_foreign();
    test_oversize();
    test_disagreement();
    test_private();
    test_whole_header();
    test_reading_order();
    test_slice_lengths();
    test_all_empty();
    test_writing_order();
    test_writing_causes();
    test_odd_words();
    test_answer_lengths();
    test_busy();
    test_busy_odd();
    test_there_and_back();
    test_open_bench();
    test_open_whole_header();
    test_opening_order();
    test_open_lengths();
    test_open_edges();
    test_open_answer_lengths();
    test_close_bench();
    test_close_refusals();
    test_close_and_open();
    printf("%lu checks, %lu failed\n", checks, failures);
    return failures != 0;
}
