/* The benchmark's yardstick: chip, streams, decoding and listing of the rules in plain C99, with the checks and the refusals of
   the libraries. It works in place on the 64-byte record and is written to be read: no trick that a maintainer would have to
   be told of. What it returns is what the libraries return (ht1621_simulator.h, ht1621_host.h).
   PACK is the name under which the compiler's command line wants it all. */
#include <stddef.h>
#include <stdint.h>
#include <stdio.h>
#include <string.h>

#include "ht1621.h"

enum { NO_FRAME, IDENT, READ_ADDRESS, WRITE_ADDRESS, READING, WRITING, COMMAND, DEAD };
enum { XTAL, RC, EXT };
enum { NO_SOURCE, TIME_BASE, FLAG };

/* ---- the record ---- */

/* How many base ticks a common is scanned, by the part. */
enum { HT_SCANNED = 128, GN_SCANNED = 96 };
static const uint8_t scanned[2] = {[HT1621_PART_HT] = HT_SCANNED, [HT1621_PART_GN] = GN_SCANNED};

static unsigned value_in(const uint8_t *r) { return r[HT1621_AT_VALUE] + 256u * r[HT1621_AT_VALUE + 1]; }

static int valid(const uint8_t *r, size_t bytes)
{
    static const uint8_t most[HT1621_RECORD_BYTES] = {
        15, 15, 15, 15, 15, 15, 15, 15, 15, 15, 15, 15, 15, 15, 15, 15, /* memory */
        15, 15, 15, 15, 15, 15, 15, 15, 15, 15, 15, 15, 15, 15, 15, 15,
        15, 7, 8, 255, 255, HT1621_FRAME_ADDRESSES - 1, 3, 2,           /* lines to DATA */
        1, 2, 1, 3, 4, 1, 4, 1,                                         /* system to the IRQ output */
        7, 1, 2, 1, 7, 15, 127, 255,                                    /* r to b */
        3, 1, HT1621_PART_GN, 127, 3, 0, 0, 0,                          /* w to the zeros */
    };
    static const uint8_t most_bits[8] = {0, 2, 5, 5, 0, 3, 8, 0};
    unsigned phase;

    if (bytes != HT1621_RECORD_BYTES)
        return 0;
    for (int i = 0; i < HT1621_RECORD_BYTES; i++)
        if (r[i] > most[i])
            return 0;
    if (r[HT1621_AT_BIAS] < 2 || r[HT1621_AT_COMMONS] < 2)
        return 0;
    if (r[HT1621_AT_PITCH] != 4 && r[HT1621_AT_PITCH] != 2)
        return 0;
    if (r[HT1621_AT_SCAN] >= scanned[r[HT1621_AT_PART]] || r[HT1621_AT_COMMON] >= r[HT1621_AT_COMMONS])
        return 0;
    phase = r[HT1621_AT_PHASE];
    if ((phase == NO_FRAME) != (r[HT1621_AT_LINES] & HT1621_CS))
        return 0;
    if (r[HT1621_AT_COUNT] > most_bits[phase] || value_in(r) >> r[HT1621_AT_COUNT] != 0)
        return 0;
    if (phase == READING || phase == WRITING)
        return 1;
    return r[HT1621_AT_ADDRESS] == 0 && r[HT1621_AT_POSITION] == 0 && r[HT1621_AT_DATA] == 0;
}

/* ---- commands ---- */

enum {
    NONE, SYS_DIS, SYS_EN, LCD_OFF, LCD_ON, TIM_DIS, WDT_DIS, TIM_EN, WDT_EN, TON_OFF, TON_ON, CLR_TIM, CLR_WDT, XTAL_32,
    RC_256, EXT_256, BIAS, TONE_4K, TONE_2K, IRQ_DIS, IRQ_EN, RATE, TEST, NORMAL
};

#define FOUR(c) c, c, c, c
#define EIGHT(c) FOUR(c), FOUR(c)
#define SIXTEEN(c) EIGHT(c), EIGHT(c)

/* By the part, and by the upper eight of a command's nine bits. The parts differ in 0A to 0D alone. */
#define MEANINGS(at_0a, at_0c) {                                                                                  \
    SYS_DIS, SYS_EN, LCD_OFF, LCD_ON, TIM_DIS, WDT_DIS, TIM_EN, WDT_EN,                  /* 00 */                 \
    TON_OFF, TON_ON, at_0a, at_0a, at_0c, at_0c, CLR_WDT, CLR_WDT,                       /* 08 */                 \
    FOUR(NONE), FOUR(XTAL_32), FOUR(RC_256), FOUR(EXT_256),                              /* 10 */                 \
    EIGHT(BIAS), FOUR(BIAS), FOUR(NONE), SIXTEEN(NONE),                                  /* 20, 30 */             \
    SIXTEEN(TONE_4K), SIXTEEN(TONE_4K), SIXTEEN(TONE_2K), SIXTEEN(TONE_2K),              /* 40 to 70 */           \
    EIGHT(IRQ_DIS), EIGHT(IRQ_EN), EIGHT(IRQ_DIS), EIGHT(IRQ_EN),                        /* 80, 90 */             \
    SIXTEEN(RATE), SIXTEEN(RATE), SIXTEEN(NONE), SIXTEEN(NONE),                          /* A0 to D0 */           \
    TEST, NONE, NONE, NORMAL, FOUR(NONE), EIGHT(NONE), SIXTEEN(NONE),                    /* E0, F0 */             \
}
static const uint8_t meaning[2][256] = {
    [HT1621_PART_HT] = MEANINGS(NONE, CLR_TIM),
    [HT1621_PART_GN] = MEANINGS(CLR_TIM, NONE),
};

static void set_irq_source(uint8_t *r, int base, int source)
{
    r[HT1621_AT_BASE] = base;
    r[HT1621_AT_IRQ_SOURCE] = source;
}

static uint32_t answer(unsigned number, unsigned first, unsigned second)
{
    return number + 256u * first + 65536u * second;
}

static uint32_t obey(uint8_t *r, uint8_t code)
{
    unsigned source = r[HT1621_AT_IRQ_SOURCE];

    switch (meaning[r[HT1621_AT_PART]][code]) {
    case NONE: return answer(HT1621_COMMAND_UNDEFINED, code, 0);
    case SYS_DIS:
        if (r[HT1621_AT_SOURCE] != EXT)
            r[HT1621_AT_SYSTEM] = r[HT1621_AT_LCD] = 0;
        break;
    case SYS_EN: r[HT1621_AT_SYSTEM] = 1; break;
    case LCD_OFF: r[HT1621_AT_LCD] = 0; break;
    case LCD_ON: r[HT1621_AT_LCD] = 1; break;
    case TIM_DIS: set_irq_source(r, r[HT1621_AT_BASE], source == TIME_BASE ? NO_SOURCE : source); break;
    case WDT_DIS: set_irq_source(r, 0, source == FLAG ? NO_SOURCE : source); break;
    case TIM_EN: set_irq_source(r, 1, TIME_BASE); break;
    case WDT_EN: set_irq_source(r, 1, FLAG); break;
    case TON_OFF: r[HT1621_AT_TONE] = 0; break;
    case TON_ON: r[HT1621_AT_TONE] = 1; break;
    case CLR_WDT: r[HT1621_AT_W] = r[HT1621_AT_FLAG] = 0; /* and what CLR TIMER clears */ /* fall through */
    case CLR_TIM: r[HT1621_AT_D] = r[HT1621_AT_B] = 0; break;
    case XTAL_32: r[HT1621_AT_SOURCE] = XTAL; break;
    case RC_256: r[HT1621_AT_SOURCE] = RC; break;
    case EXT_256: r[HT1621_AT_SOURCE] = EXT; break;
    case BIAS:
        r[HT1621_AT_BIAS] = 2 + (code & 1);
        r[HT1621_AT_COMMONS] = 2 + (code >> 2 & 3);
        r[HT1621_AT_SCAN] = r[HT1621_AT_COMMON] = 0;
        break;
    case TONE_4K: r[HT1621_AT_PITCH] = 4; break;
    case TONE_2K: r[HT1621_AT_PITCH] = 2; break;
    case IRQ_DIS: r[HT1621_AT_IRQ] = r[HT1621_AT_FLAG] = 0; break;
    case IRQ_EN: r[HT1621_AT_IRQ] = 1; break;
    case RATE: r[HT1621_AT_RATE] = code & 7; break;
    case TEST: r[HT1621_AT_TEST] = 1; break;
    case NORMAL: r[HT1621_AT_TEST] = 0; break;
    }
    return answer(HT1621_COMMAND_OBEYED, code, 0);
}

/* ---- samples ---- */

static void set_bits(uint8_t *r, unsigned count, unsigned value)
{
    r[HT1621_AT_COUNT] = count;
    r[HT1621_AT_VALUE] = value & 255;
    r[HT1621_AT_VALUE + 1] = value >> 8;
}

static uint32_t identify(uint8_t *r, unsigned id)
{
    r[HT1621_AT_PHASE] = id == 6 ? READ_ADDRESS : id == 5 ? WRITE_ADDRESS : id == 4 ? COMMAND : DEAD;
    return r[HT1621_AT_PHASE] == DEAD ? HT1621_UNKNOWN_ID : HT1621_BIT_TAKEN;
}

static uint32_t store(uint8_t *r, unsigned value)
{
    unsigned address = r[HT1621_AT_ADDRESS];
    unsigned nibble = (value >> 3 & 1) | (value >> 1 & 2) | (value << 1 & 4) | (value << 3 & 8); /* D0 came first */

    if (address < HT1621_ADDRESSES)
        r[address] = nibble;
    r[HT1621_AT_ADDRESS] = (address + 1) % HT1621_FRAME_ADDRESSES;
    r[HT1621_AT_POSITION] = 0;
    return answer(HT1621_NIBBLE_STORED, address, nibble);
}

static uint32_t take_bit(uint8_t *r, unsigned bit)
{
    static const uint8_t whole[8] = {0, 3, 6, 6, 0, 4, 9, 0};
    unsigned phase = r[HT1621_AT_PHASE], count = r[HT1621_AT_COUNT] + 1u, value = 2 * value_in(r) + bit;

    if (phase == READING || phase == DEAD)
        return HT1621_STRAY_EDGE;
    r[HT1621_AT_DATA] = 0;
    if (count < whole[phase]) {
        set_bits(r, count, value);
        return HT1621_BIT_TAKEN;
    }
    set_bits(r, 0, 0);
    switch (phase) {
    case IDENT: return identify(r, value);
    case WRITING: return store(r, value);
    case COMMAND: return obey(r, value >> 1);
    }
    r[HT1621_AT_PHASE] = phase == READ_ADDRESS ? READING : WRITING;
    r[HT1621_AT_ADDRESS] = value;
    return HT1621_BIT_TAKEN;
}

static uint32_t offer_bit(uint8_t *r)
{
    unsigned address = r[HT1621_AT_ADDRESS], position = r[HT1621_AT_POSITION], bit;

    if (r[HT1621_AT_PHASE] != READING && r[HT1621_AT_PHASE] != WRITING)
        return HT1621_STRAY_EDGE;
    bit = address < HT1621_ADDRESSES ? r[address] >> position & 1 : 0;
    r[HT1621_AT_DATA] = 1 + bit;
    r[HT1621_AT_POSITION] = (position + 1) % 4;
    if (position == 3 && r[HT1621_AT_PHASE] == READING)
        r[HT1621_AT_ADDRESS] = (address + 1) % HT1621_FRAME_ADDRESSES;
    return answer(HT1621_BIT_OFFERED, address, bit);
}

/* A sample to 15 and a valid record. */
static uint32_t sampled(uint8_t *r, uint8_t sample)
{
    unsigned before = r[HT1621_AT_LINES], rise = ~before & sample & HT1621_WR, fall = before & ~sample & HT1621_RD;

    r[HT1621_AT_LINES] = sample;
    if (sample & HT1621_CS) {
        unsigned unfinished = r[HT1621_AT_COUNT];
        if (before & HT1621_CS)
            return HT1621_NOTHING;
        memset(r + HT1621_AT_PHASE, 0, HT1621_AT_SYSTEM - HT1621_AT_PHASE);
        return unfinished ? HT1621_FRAME_CUT : HT1621_FRAME_CLOSED;
    }
    if (before & HT1621_CS) {
        r[HT1621_AT_PHASE] = IDENT;
        return HT1621_FRAME_OPENED;
    }
    if (rise && fall)
        return HT1621_CLASH;
    if (rise)
        return take_bit(r, sample >> 3);
    if (fall)
        return offer_bit(r);
    return HT1621_NOTHING;
}

static uint32_t plain_step(uint8_t *record, size_t bytes, uint8_t sample)
{
    if (!valid(record, bytes))
        return HT1621_MALFORMED;
    if (sample > 15)
        return HT1621_SAMPLE_ABOVE;
    return sampled(record, sample);
}

/* ---- ticks and pins ---- */

static int running(const uint8_t *r) { return r[HT1621_AT_SYSTEM] || r[HT1621_AT_SOURCE] == EXT; }

/* Steps a counter that stands below its size, and returns how often it came back to 0. Where the size is a constant so is the divisor. */
static inline uint32_t turn(uint8_t *counter, uint32_t size, uint32_t steps)
{
    uint32_t sum = *counter + steps;

    *counter = sum % size;
    return sum / size;
}

static void scan(uint8_t *r, uint32_t base_ticks)
{
    uint8_t *counter = r + HT1621_AT_SCAN, *common = r + HT1621_AT_COMMON;
    uint32_t rounds =
        r[HT1621_AT_PART] == HT1621_PART_GN ? turn(counter, GN_SCANNED, base_ticks) : turn(counter, HT_SCANNED, base_ticks);

    switch (r[HT1621_AT_COMMONS]) {
    case 2: turn(common, 2, rounds); break;
    case 3: turn(common, 3, rounds); break;
    case 4: turn(common, 4, rounds); break;
    }
}

/* So many ticks while running. */
static void run(uint8_t *r, uint32_t ticks)
{
    uint32_t base_ticks = r[HT1621_AT_SOURCE] == XTAL ? ticks : turn(r + HT1621_AT_P, 8, ticks);
    unsigned shift = 7 - r[HT1621_AT_RATE];
    uint32_t d = r[HT1621_AT_D], turns;

    turn(r + HT1621_AT_Q, 16, base_ticks);
    scan(r, base_ticks);
    if (!r[HT1621_AT_BASE])
        return;
    turns = ((d + base_ticks) >> shift) - (d >> shift);
    turn(r + HT1621_AT_D, 128, base_ticks);
    if (turn(r + HT1621_AT_W, 4, turn(r + HT1621_AT_B, 256, turns)))
        r[HT1621_AT_FLAG] = 1;
}

static uint32_t plain_advance(uint8_t *record, size_t bytes, uint16_t ticks)
{
    if (!valid(record, bytes))
        return HT1621_MALFORMED;
    if (running(record))
        run(record, ticks);
    return 0;
}

static uint32_t plain_pins(const uint8_t *r, size_t bytes, uint8_t *cells, size_t room)
{
    unsigned irq = 0, bz = 0, partner = 0, mask = 0;

    if (!valid(r, bytes))
        return HT1621_MALFORMED;
    if (room < HT1621_ADDRESSES)
        return HT1621_OUTPUT_SHORT;
    if (r[HT1621_AT_IRQ] && r[HT1621_AT_IRQ_SOURCE] == FLAG)
        irq = r[HT1621_AT_FLAG];
    if (r[HT1621_AT_IRQ] && r[HT1621_AT_IRQ_SOURCE] == TIME_BASE)
        irq = r[HT1621_AT_B] >= 128;
    if (running(r) && r[HT1621_AT_TONE]) {
        bz = r[HT1621_AT_PITCH] == 4 ? r[HT1621_AT_Q] % 8 >= 4 : r[HT1621_AT_Q] >= 8;
        partner = !bz;
    }
    if (running(r) && r[HT1621_AT_LCD])
        mask = (1u << r[HT1621_AT_COMMONS]) - 1;
    for (int s = 0; s < HT1621_ADDRESSES; s++)
        cells[s] = r[s] & mask;
    return irq + 2 * bz + 4 * partner + 8u * r[HT1621_AT_DATA];
}

/* ---- the host's side ---- */

static uint32_t refused(unsigned number, size_t place) { return 0x80000000u + 256u * (uint32_t)place + number; }

/* The lowest `count` bits of a value, the highest of them first. */
static uint8_t *put_bits(uint8_t *out, unsigned value, int count)
{
    while (count-- > 0) {
        unsigned bit = value >> count & 1;
        *out++ = 4 + 8 * bit;
        *out++ = 6 + 8 * bit;
    }
    return out;
}

static uint8_t *put_opening(uint8_t *out, unsigned id)
{
    *out++ = 15;
    *out++ = 14;
    return put_bits(out, id, 3);
}

static uint32_t plain_write(size_t first, const uint8_t *nibbles, size_t count, uint8_t *out, size_t room)
{
    uint8_t *at = out;

    if (count == 0)
        return refused(HT1621_NOTHING_ASKED, 0);
    if (first > 31)
        return refused(HT1621_ADDRESS_ABOVE, 0);
    if (count > 32 - first)
        return refused(HT1621_RUNS_PAST_END, 0);
    for (size_t i = 0; i < count; i++)
        if (nibbles[i] > 15)
            return refused(HT1621_NIBBLE_ABOVE, i);
    if (room < 21 + 8 * count)
        return refused(HT1621_OUTPUT_SHORT, 0);
    at = put_bits(put_opening(at, 5), (unsigned)first, 6);
    for (size_t i = 0; i < count; i++)
        for (int place = 0; place < 4; place++)
            at = put_bits(at, nibbles[i] >> place, 1);
    *at++ = 15;
    return (uint32_t)(at - out);
}

static uint32_t plain_read(size_t first, size_t count, uint8_t *out, size_t room)
{
    uint8_t *at = out;

    if (count == 0)
        return refused(HT1621_NOTHING_ASKED, 0);
    if (first > 31)
        return refused(HT1621_ADDRESS_ABOVE, 0);
    if (count > 32 - first)
        return refused(HT1621_RUNS_PAST_END, 0);
    if (room < 21 + 8 * count)
        return refused(HT1621_OUTPUT_SHORT, 0);
    at = put_bits(put_opening(at, 6), (unsigned)first, 6);
    for (size_t i = 0; i < 4 * count; i++) {
        *at++ = 10;
        *at++ = 14;
    }
    *at++ = 15;
    return (uint32_t)(at - out);
}

static uint32_t plain_commands(size_t part, const uint8_t *codes, size_t count, uint8_t *out, size_t room)
{
    uint8_t *at = out;

    if (part > HT1621_PART_GN)
        return refused(HT1621_UNKNOWN_PART, 0);
    if (count == 0)
        return refused(HT1621_NOTHING_ASKED, 0);
    if (count > 32)
        return refused(HT1621_TOO_MANY_COMMANDS, 0);
    for (size_t i = 0; i < count; i++)
        if (meaning[part][codes[i]] == NONE)
            return refused(HT1621_UNDEFINED_COMMAND, i);
    if (room < 9 + 18 * count)
        return refused(HT1621_OUTPUT_SHORT, 0);
    at = put_opening(at, 4);
    for (size_t i = 0; i < count; i++)
        at = put_bits(at, 2u * codes[i], 9);
    *at++ = 15;
    return (uint32_t)(at - out);
}

static uint32_t plain_decode(const uint8_t *noted, size_t count, uint8_t *out, size_t room)
{
    if (count == 0 || count > 128 || count % 4 != 0)
        return refused(HT1621_NOTED_COUNT, 0);
    for (size_t i = 0; i < count; i++)
        if (noted[i] > 1)
            return refused(HT1621_NOTED_ABOVE, i);
    if (room < count / 4)
        return refused(HT1621_OUTPUT_SHORT, 0);
    for (size_t i = 0; i < count / 4; i++, noted += 4)
        out[i] = noted[0] + 2 * noted[1] + 4 * noted[2] + 8 * noted[3];
    return (uint32_t)(count / 4);
}

/* ---- the listing ---- */

enum { INPUT_BYTES = 65536, LINE_BYTES = 24 };

typedef ptrdiff_t (*get_bytes)(int, void *, size_t);
typedef ptrdiff_t (*put_bytes)(int, const void *, size_t);

static char *put_number(char *out, unsigned n, char after)
{
    char digits[10];
    int count = 0;

    do
        digits[count++] = '0' + n % 10;
    while (n /= 10);
    while (count > 0)
        *out++ = digits[--count];
    *out++ = after;
    return out;
}

static char *put_line(char *out, unsigned sample, uint32_t a, int formatted)
{
    if (formatted)
        return out + sprintf(out, "%u %u %u %u\n", sample, a & 255, a >> 8 & 255, a >> 16);
    out = put_number(out, sample, ' ');
    out = put_number(out, a & 255, ' ');
    out = put_number(out, a >> 8 & 255, ' ');
    return put_number(out, a >> 16, '\n');
}

static size_t list(const uint8_t *input, size_t count, char *out, int formatted)
{
    uint8_t chip[HT1621_RECORD_BYTES] = {
        [HT1621_AT_LINES] = 15, [HT1621_AT_SOURCE] = RC, [HT1621_AT_BIAS] = 2, [HT1621_AT_COMMONS] = 2,
        [HT1621_AT_PITCH] = 4, [HT1621_AT_RATE] = 7,
    };
    char *at = out;
    unsigned samples = 0, ticks = 0;

    if (count > INPUT_BYTES)
        return (size_t)sprintf(out, "long\n");
    for (size_t i = 0; i < count; i++) {
        uint8_t byte = input[i];
        int digit = byte >= '0' && byte <= '9', letter = byte >= 'a' && byte <= 'f';
        if (digit || letter) {
            uint32_t a = sampled(chip, digit ? byte - '0' : byte - 'a' + 10);
            samples++;
            if (a != HT1621_NOTHING && a != HT1621_BIT_TAKEN)
                at = put_line(at, samples, a, formatted);
        } else if (byte == 't') {
            ticks++;
            if (running(chip))
                run(chip, 1);
        } else if (byte != ' ' && byte != '\n') {
            return (size_t)(at - out + sprintf(at, "bad %u\n", (unsigned)i));
        }
    }
    return (size_t)(at - out + sprintf(at, "end %u %u\n", samples, ticks));
}

/* The whole program over a read and a write that are given: its buffers are the program's own, as in any program. */
static void program(get_bytes get, put_bytes put, int formatted)
{
    static uint8_t input[INPUT_BYTES + 1];
    static char out[INPUT_BYTES * LINE_BYTES + 16];
    size_t count = 0;
    ptrdiff_t got;

    while (count < sizeof input && (got = get(0, input + count, sizeof input - count)) > 0)
        count += (size_t)got;
    put(1, out, list(input, count, out, formatted));
}

static void plain_listing(get_bytes get, put_bytes put) { program(get, put, 0); }
static void plain_formatted(get_bytes get, put_bytes put) { program(get, put, 1); }

/* What the benchmark calls, in the order of its own structure (packs.rs). */
const struct {
    uint32_t (*step)(uint8_t *, size_t, uint8_t);
    uint32_t (*advance)(uint8_t *, size_t, uint16_t);
    uint32_t (*pins)(const uint8_t *, size_t, uint8_t *, size_t);
    uint32_t (*write)(size_t, const uint8_t *, size_t, uint8_t *, size_t);
    uint32_t (*read)(size_t, size_t, uint8_t *, size_t);
    uint32_t (*commands)(size_t, const uint8_t *, size_t, uint8_t *, size_t);
    uint32_t (*decode)(const uint8_t *, size_t, uint8_t *, size_t);
    void (*listing)(get_bytes, put_bytes);
    void (*formatted)(get_bytes, put_bytes);
} PACK = {plain_step, plain_advance, plain_pins, plain_write, plain_read, plain_commands, plain_decode, plain_listing,
          plain_formatted};
