/* A host in C over the calls, held to docs/RULES.md: the worked stream, the cases on both sides, every damaged record of both
   parts, every order of refusals that a length can show, buffers between guard bytes, what the parts differ in, frames that go
   past the memory, and writes stopped at every sample. What is expected is written here from the rules; nothing is taken from
   the code under test. Exits with 1 at the first fault. */
#include <stdio.h>
#include <stdlib.h>
#include <string.h>

#include "ht1621_host.h"
#ifdef PREFIXED /* over libht1621.a, else over libsimulator.a and libhost.a */
#include "ht1621_chip.h"
#define step ht1621_step
#define advance ht1621_advance
#define pins ht1621_pins
#else
#include "ht1621_simulator.h"
#endif

enum { GUARD = 16, ROOM = 700 };

static unsigned long checks;

#define CHECK(fact) check(fact, #fact, __LINE__)

static void check(int holds, const char *fact, int line)
{
    checks++;
    if (!holds) {
        printf("host.c:%d: does not hold: %s\n", line, fact);
        exit(1);
    }
}

/* A buffer on the heap, exactly as long as its guards and its body ask. */
struct lent {
    uint8_t *all, *body;
    size_t bytes;
};

static uint8_t filler(size_t i) { return (uint8_t)(0x80 | (i * 37)); }

static struct lent lend(size_t bytes)
{
    struct lent l = {malloc(bytes + 2 * GUARD), NULL, bytes};
    CHECK(l.all != NULL);
    l.body = l.all + GUARD;
    for (size_t i = 0; i < bytes + 2 * GUARD; i++)
        l.all[i] = filler(i);
    return l;
}

static struct lent lend_record(const uint8_t *record)
{
    struct lent l = lend(HT1621_RECORD_BYTES);
    memcpy(l.body, record, HT1621_RECORD_BYTES);
    return l;
}

/* Whether nothing changed but the first `written` bytes of the body; then the buffer is given back. */
static int intact(struct lent l, size_t written)
{
    int good = 1;
    for (size_t i = 0; i < l.bytes + 2 * GUARD; i++)
        if ((i < GUARD || i >= GUARD + written) && l.all[i] != filler(i))
            good = 0;
    free(l.all);
    return good;
}

/* Of the bytes after the memory: the most that each may be, but for what goes by phase, by part and by commons. */
static const uint8_t most[32] = {15, 7, 8, 255, 255, 63, 3, 2, 1, 2, 1, 3, 4, 1, 4, 1,
                                 7, 1, 2, 1, 7, 15, 127, 255, 3, 1, 1, 127, 3, 0, 0, 0};

/* Where the scan's counter of each part ends. */
static const uint8_t last[2] = {127, 95};

static int valid(const uint8_t *r)
{
    static const uint8_t bits[8] = {0, 2, 5, 5, 0, 3, 8, 0};
    unsigned phase = r[33], in_data = phase == 4 || phase == 5;
    for (int i = 0; i < 32; i++)
        if (r[i] > 15 || r[32 + i] > most[i])
            return 0;
    if (r[43] < 2 || r[44] < 2 || (r[46] != 4 && r[46] != 2))
        return 0;
    if (r[59] > last[r[58]] || r[60] >= r[44])
        return 0;
    if ((phase == 0) != (r[32] & 1) || r[34] > bits[phase] || (r[35] + 256u * r[36]) >> r[34] != 0)
        return 0;
    return in_data || (r[37] == 0 && r[38] == 0 && r[39] == 0);
}

/* Power-on of a part as the rules list it, byte by byte. */
static void powered(uint8_t *r, uint8_t part, const uint8_t *memory)
{
    memset(r, 0, HT1621_RECORD_BYTES);
    memcpy(r, memory, HT1621_ADDRESSES);
    r[HT1621_AT_LINES] = 15;
    r[HT1621_AT_SOURCE] = 1;
    r[HT1621_AT_BIAS] = 2;
    r[HT1621_AT_COMMONS] = 2;
    r[HT1621_AT_PITCH] = 4;
    r[HT1621_AT_RATE] = 7;
    r[HT1621_AT_PART] = part;
}

/* One record of each part and phase. */
static void in_phase(uint8_t *r, uint8_t part, uint8_t phase)
{
    static const uint8_t memory[HT1621_ADDRESSES] = {5, 10, 15, 3};
    powered(r, part, memory);
    r[HT1621_AT_PHASE] = phase;
    if (phase != 0)
        r[HT1621_AT_LINES] = 14;
    if (phase == 4 || phase == 5) {
        r[HT1621_AT_ADDRESS] = 2;
        r[HT1621_AT_POSITION] = 1;
        r[HT1621_AT_DATA] = 2;
    }
}

static uint32_t refused(uint32_t number, uint32_t place) { return 0x80000000u + 256 * place + number; }

/* All three calls on one record: refused with 28, or taken, as the rules have it; and no byte changed by a refusal. */
static void three_calls(const uint8_t *record)
{
    uint32_t malformed = valid(record) ? 0 : HT1621_MALFORMED;
    struct lent l = lend_record(record);
    uint32_t r = step(l.body, l.bytes, 16);
    CHECK(r == (malformed ? malformed : HT1621_SAMPLE_ABOVE));
    CHECK(memcmp(l.body, record, HT1621_RECORD_BYTES) == 0);
    r = advance(l.body, l.bytes, 0);
    CHECK(r == malformed && memcmp(l.body, record, HT1621_RECORD_BYTES) == 0);
    struct lent cells = lend(33);
    r = pins(l.body, l.bytes, cells.body, cells.bytes);
    CHECK(malformed ? r == malformed : !HT1621_PINS_REFUSED(r) && HT1621_PINS_DATA(r) == record[HT1621_AT_DATA]);
    CHECK(intact(cells, malformed ? 0 : 32));
    r = step(l.body, l.bytes, 15);
    CHECK(malformed ? r == malformed : HT1621_STEP_ANSWER(r) <= HT1621_FRAME_CUT);
    CHECK(malformed ? memcmp(l.body, record, HT1621_RECORD_BYTES) == 0 : valid(l.body));
    CHECK(intact(l, HT1621_RECORD_BYTES));
}

/* Of a part in each phase each byte at every value; and the bits' count, value and phase together. */
static void damaged_in_phases(uint8_t part)
{
    uint8_t record[HT1621_RECORD_BYTES], was;
    for (uint8_t phase = 0; phase < 8; phase++) {
        in_phase(record, part, phase);
        CHECK(valid(record));
        for (int at = 0; at < HT1621_RECORD_BYTES; at++) {
            was = record[at];
            for (int value = 0; value < 256; value++) {
                record[at] = (uint8_t)value;
                three_calls(record);
            }
            record[at] = was;
        }
        for (int count = 0; count < 10; count++)
            for (int bit = 0; bit < 16; bit++) {
                record[HT1621_AT_COUNT] = (uint8_t)count;
                record[HT1621_AT_VALUE] = (uint8_t)(1u << bit);
                record[HT1621_AT_VALUE + 1] = (uint8_t)(1u << bit >> 8);
                three_calls(record);
            }
    }
}

/* Each counter of a scan with each common and each number of commons, as either part, as parts that are none, and with the
   bytes after them. */
static void damaged_scans(void)
{
    static const uint8_t parts[] = {0, 1, 2, 3, 128, 255};
    uint8_t record[HT1621_RECORD_BYTES];
    for (size_t i = 0; i < sizeof parts; i++)
        for (uint8_t commons = 2; commons <= 4; commons++)
            for (uint8_t common = 0; common <= 5; common++)
                for (int counter = 0; counter < 256; counter++) {
                    in_phase(record, parts[i], 4);
                    record[HT1621_AT_COMMONS] = commons;
                    record[HT1621_AT_SCAN] = (uint8_t)counter;
                    record[HT1621_AT_COMMON] = common;
                    three_calls(record);
                }
    for (size_t at = HT1621_AT_ZEROS; at < HT1621_RECORD_BYTES; at++)
        for (uint8_t part = 0; part < 2; part++) {
            in_phase(record, part, 0);
            record[HT1621_AT_SCAN] = last[part];
            record[HT1621_AT_COMMON] = 1;
            three_calls(record);
            record[at] = 1;
            three_calls(record);
        }
}

/* Damaged records, and records of every length. */
static void damaged_records(void)
{
    uint8_t record[HT1621_RECORD_BYTES];
    damaged_in_phases(HT1621_PART_HT);
    damaged_in_phases(HT1621_PART_GN);
    damaged_scans();
    in_phase(record, HT1621_PART_GN, 5);
    for (size_t length = 0; length <= 130; length++) {
        struct lent l = lend(length), cells = lend(40);
        memcpy(l.body, record, length < 64 ? length : 64);
        uint32_t s = step(l.body, length, 14), a = advance(l.body, length, 3), p = pins(l.body, length, cells.body, 40);
        CHECK(length == 64 ? s == 0 && a == 0 && !HT1621_PINS_REFUSED(p) : s == 28 && a == 28 && p == 28);
        CHECK(intact(cells, length == 64 ? 32 : 0));
        CHECK(intact(l, length < 64 ? length : 64));
    }
}

/* The worked stream, the streams' lengths, and refusals in the table's order with the output of every length around. */
static void streams(void)
{
    static const char worked[] = "fece46ce46464646cecece46ce46f";
    uint8_t nibbles[33] = {5}, out[ROOM];
    uint32_t n = ht1621_write(3, nibbles, 1, out, sizeof out);
    CHECK(n == 29 && strlen(worked) == 29);
    for (uint32_t i = 0; i < n; i++)
        CHECK(out[i] == strtoul((char[]){worked[i], 0}, NULL, 16));
    for (size_t first = 0; first <= 33; first++)
        for (size_t count = 0; count <= 33; count++) {
            size_t needed = 21 + 8 * count;
            for (size_t room = needed - 2; room <= needed + 2; room++) {
                uint32_t due = count == 0 ? refused(21, 0) : first > 31 ? refused(22, 0) : first + count > 32 ? refused(30, 0)
                               : room < needed ? refused(25, 0) : (uint32_t)needed;
                struct lent w = lend(room), r = lend(room);
                CHECK(ht1621_write(first, nibbles, count, w.body, room) == due);
                CHECK(ht1621_read(first, count, r.body, room) == due);
                size_t written = HT1621_WRITE_REFUSED(due) ? 0 : due;
                CHECK(written == 0 || (w.body[0] == 15 && w.body[1] == 14 && w.body[needed - 1] == 15));
                CHECK(intact(w, written) && intact(r, written));
            }
        }
    nibbles[7] = 16, nibbles[9] = 255;
    CHECK(ht1621_write(0, nibbles, 10, out, 0) == refused(23, 7));
    CHECK(ht1621_write(23, nibbles, 10, out, 0) == refused(30, 0));
    CHECK(ht1621_write(32, nibbles, 10, out, 0) == refused(22, 0));
    CHECK(ht1621_write((size_t)-1, nibbles, 1, out, sizeof out) == refused(22, 0));
    CHECK(ht1621_read((size_t)-1, (size_t)-1, out, sizeof out) == refused(22, 0));
    CHECK(ht1621_read(32, (size_t)-32, out, sizeof out) == refused(22, 0));
    CHECK(ht1621_read(1, (size_t)-1, out, sizeof out) == refused(30, 0));
    CHECK(ht1621_read(31, (size_t)-1, out, sizeof out) == refused(30, 0));
}

static void commands_and_notes(void)
{
    uint8_t codes[33] = {0x2B, 0x0D, 0x2C}, noted[132] = {1, 0, 1, 0}, out[ROOM], memory[33] = {0}, due[64];
    for (size_t room = 25; room <= 29; room++)
        for (size_t part = 0; part <= 2; part++) {
            struct lent o = lend(room);
            CHECK(ht1621_commands(part, codes, 1, o.body, room) == (part > 1 ? refused(43, 0) : room < 27 ? refused(25, 0) : 27));
            CHECK(intact(o, part > 1 || room < 27 ? 0 : 27));
        }
    CHECK(ht1621_commands(HT1621_PART_HT, codes, 3, out, 0) == refused(24, 2));
    CHECK(ht1621_commands(HT1621_PART_GN, codes, 3, out, 0) == refused(24, 1));
    CHECK(ht1621_commands(HT1621_PART_HT, codes, 33, out, 0) == refused(31, 0));
    CHECK(ht1621_commands(HT1621_PART_GN, codes, 33, out, 0) == refused(31, 0));
    CHECK(ht1621_commands(HT1621_PART_HT, codes, 0, out, 0) == refused(21, 0));
    CHECK(ht1621_commands(HT1621_PART_GN, codes, 0, out, 0) == refused(21, 0));
    memset(codes, 1, sizeof codes);
    CHECK(ht1621_commands(HT1621_PART_HT, codes, 32, out, sizeof out) == 9 + 18 * 32);
    CHECK(ht1621_commands(HT1621_PART_GN, codes, 32, out, sizeof out) == 9 + 18 * 32);
    for (size_t count = 0; count <= 132; count++) {
        struct lent o = lend(count / 4 + 1);
        uint32_t fits = count == 0 || count > 128 || count % 4 ? refused(26, 0) : (uint32_t)(count / 4);
        CHECK(ht1621_decode(noted, count, o.body, o.bytes) == fits);
        CHECK(HT1621_DECODE_REFUSED(fits) || o.body[0] == 5);
        CHECK(intact(o, HT1621_DECODE_REFUSED(fits) ? 0 : fits));
    }
    noted[6] = 2;
    CHECK(ht1621_decode(noted, 8, out, 0) == refused(27, 6));
    noted[6] = 0;
    CHECK(ht1621_decode(noted, 8, out, 1) == refused(25, 0));
    for (size_t count = 0; count <= 33; count++)
        for (size_t room = 62; room <= 66; room++)
            for (uint8_t part = 0; part <= 2; part++) {
                struct lent o = lend(room);
                uint32_t answer = part > 1 ? refused(43, 0) : count != 32 ? refused(29, 0) : room < 64 ? refused(25, 0) : 64;
                CHECK(ht1621_power_on(part, memory, count, o.body, room) == answer);
                powered(due, part, memory);
                CHECK(HT1621_POWER_ON_REFUSED(answer) || memcmp(o.body, due, 64) == 0);
                CHECK(intact(o, HT1621_POWER_ON_REFUSED(answer) ? 0 : 64));
            }
    memory[31] = 16;
    CHECK(ht1621_power_on(HT1621_PART_HT, memory, 32, out, 0) == refused(23, 31));
    CHECK(ht1621_power_on(HT1621_PART_GN, memory, 32, out, 0) == refused(23, 31));
    CHECK(ht1621_power_on(HT1621_PART_GN, memory, 31, out, 0) == refused(29, 0));
}

/* Parts that are none, those too whose low bits are a part's: 43 comes before all else, and no byte changes. */
static void unknown_parts(void)
{
    static const size_t parts[] = {2, 3, 255, 256, 257, 65536, 65537, (size_t)1 << 31, (size_t)-1, (size_t)-2};
    uint8_t codes[33] = {HT1621_SYS_EN, 0x2C}, memory[HT1621_ADDRESSES] = {0, 16};
    for (size_t i = 0; i < sizeof parts / sizeof parts[0]; i++) {
        struct lent o = lend(ROOM);
        for (size_t count = 0; count <= sizeof codes; count++)
            for (size_t room = 0; room <= 27; room += 27)
                CHECK(ht1621_commands(parts[i], codes, count, o.body, room) == refused(43, 0));
        for (size_t count = 0; count <= sizeof memory; count++)
            for (size_t room = 0; room <= 64; room += 32)
                CHECK(ht1621_power_on(parts[i], memory, count, o.body, room) == refused(43, 0));
        CHECK(intact(o, 0));
    }
#if SIZE_MAX > 0xffffffffu
    CHECK(ht1621_commands((size_t)1 << 32, codes, 1, NULL, 0) == refused(43, 0));
    CHECK(ht1621_commands(((size_t)1 << 32) + 1, codes, 1, NULL, 0) == refused(43, 0));
    CHECK(ht1621_power_on((size_t)1 << 32, memory, 1, NULL, 0) == refused(43, 0));
    CHECK(ht1621_power_on(((size_t)1 << 32) + 1, memory, 1, NULL, 0) == refused(43, 0));
#endif
}

/* Each call's own test for a refusal, on a success and on a refusal; the number, and the place. */
static void refusals(void)
{
    uint8_t chip[HT1621_RECORD_BYTES], out[ROOM], values[HT1621_ADDRESSES] = {0}, code = HT1621_SYS_EN;
    uint8_t codes[33] = {HT1621_SYS_EN};
    uint32_t r = ht1621_power_on(HT1621_PART_HT, values, sizeof values, chip, sizeof chip);
    CHECK(!HT1621_POWER_ON_REFUSED(r) && r == HT1621_RECORD_BYTES);
    CHECK(!HT1621_STEP_REFUSED(step(chip, sizeof chip, 14)));
    CHECK(!HT1621_ADVANCE_REFUSED(advance(chip, sizeof chip, 65535)));
    CHECK(!HT1621_PINS_REFUSED(pins(chip, sizeof chip, out, sizeof out)));
    CHECK(!HT1621_WRITE_REFUSED(ht1621_write(0, values, 1, out, sizeof out)));
    CHECK(!HT1621_READ_REFUSED(ht1621_read(0, 1, out, sizeof out)));
    CHECK(!HT1621_COMMANDS_REFUSED(ht1621_commands(HT1621_PART_HT, &code, 1, out, sizeof out)));
    CHECK(!HT1621_DECODE_REFUSED(ht1621_decode(values, 4, out, sizeof out)));
    r = step(chip, sizeof chip, 16);
    CHECK(HT1621_STEP_REFUSED(r) && HT1621_REFUSAL(r) == HT1621_SAMPLE_ABOVE && HT1621_PLACE(r) == 0);
    r = advance(chip, 63, 1);
    CHECK(HT1621_ADVANCE_REFUSED(r) && HT1621_REFUSAL(r) == HT1621_MALFORMED && HT1621_PLACE(r) == 0);
    r = pins(chip, sizeof chip, out, 31);
    CHECK(HT1621_PINS_REFUSED(r) && HT1621_REFUSAL(r) == HT1621_OUTPUT_SHORT && HT1621_PLACE(r) == 0);
    values[3] = 16, code = 0x0A;
    r = ht1621_power_on(HT1621_PART_HT, values, sizeof values, chip, sizeof chip);
    CHECK(HT1621_POWER_ON_REFUSED(r) && HT1621_REFUSAL(r) == HT1621_NIBBLE_ABOVE && HT1621_PLACE(r) == 3);
    r = ht1621_power_on(2, values, sizeof values, chip, sizeof chip);
    CHECK(HT1621_POWER_ON_REFUSED(r) && HT1621_REFUSAL(r) == HT1621_UNKNOWN_PART && HT1621_PLACE(r) == 0);
    r = ht1621_write(0, values, 4, out, sizeof out);
    CHECK(HT1621_WRITE_REFUSED(r) && HT1621_REFUSAL(r) == HT1621_NIBBLE_ABOVE && HT1621_PLACE(r) == 3);
    r = ht1621_read(31, 2, out, sizeof out);
    CHECK(HT1621_READ_REFUSED(r) && HT1621_REFUSAL(r) == HT1621_RUNS_PAST_END && HT1621_PLACE(r) == 0);
    r = ht1621_read(32, 1, out, sizeof out);
    CHECK(HT1621_READ_REFUSED(r) && HT1621_REFUSAL(r) == HT1621_ADDRESS_ABOVE && HT1621_PLACE(r) == 0);
    r = ht1621_commands(HT1621_PART_HT, codes, sizeof codes, out, sizeof out);
    CHECK(HT1621_COMMANDS_REFUSED(r) && HT1621_REFUSAL(r) == HT1621_TOO_MANY_COMMANDS && HT1621_PLACE(r) == 0);
    r = ht1621_commands(HT1621_PART_HT, &code, 1, out, sizeof out);
    CHECK(HT1621_COMMANDS_REFUSED(r) && HT1621_REFUSAL(r) == HT1621_UNDEFINED_COMMAND && HT1621_PLACE(r) == 0);
    r = ht1621_commands(2, &code, 1, out, sizeof out);
    CHECK(HT1621_COMMANDS_REFUSED(r) && HT1621_REFUSAL(r) == HT1621_UNKNOWN_PART && HT1621_PLACE(r) == 0);
    r = ht1621_decode(values, 4, out, sizeof out);
    CHECK(HT1621_DECODE_REFUSED(r) && HT1621_REFUSAL(r) == HT1621_NOTED_ABOVE && HT1621_PLACE(r) == 3);
}

/* Slices of 0 bytes at NULL, and slices at odd addresses. */
static void pointers(void)
{
    uint8_t memory[HT1621_ADDRESSES + 1] = {0}, chip[HT1621_RECORD_BYTES + 1], out[ROOM];
    CHECK(step(NULL, 0, 15) == HT1621_MALFORMED && advance(NULL, 0, 1) == HT1621_MALFORMED);
    CHECK(pins(NULL, 0, NULL, 0) == HT1621_MALFORMED);
    CHECK(ht1621_power_on(HT1621_PART_HT, NULL, 0, NULL, 0) == refused(29, 0) && ht1621_write(0, NULL, 0, NULL, 0) == refused(21, 0));
    CHECK(ht1621_read(0, 1, NULL, 0) == refused(25, 0) && ht1621_commands(HT1621_PART_GN, NULL, 0, NULL, 0) == refused(21, 0));
    CHECK(ht1621_decode(NULL, 0, NULL, 0) == refused(26, 0));
    for (size_t odd = 0; odd < 2; odd++) {
        CHECK(ht1621_power_on(odd, memory + odd, HT1621_ADDRESSES, chip + odd, HT1621_RECORD_BYTES) == HT1621_RECORD_BYTES);
        CHECK(step(chip + odd, HT1621_RECORD_BYTES, 14) == HT1621_FRAME_OPENED && advance(chip + odd, HT1621_RECORD_BYTES, 3) == 0);
        CHECK(pins(chip + odd, HT1621_RECORD_BYTES, out + odd, HT1621_ADDRESSES) == 0);
        CHECK(ht1621_write(0, memory + odd, HT1621_ADDRESSES, out + odd, 277) == 277);
    }
}

static void put(uint8_t *chip, const uint8_t *samples, size_t count)
{
    for (size_t i = 0; i < count; i++)
        CHECK(!HT1621_STEP_REFUSED(step(chip, HT1621_RECORD_BYTES, samples[i])));
}

static void command(uint8_t *chip, uint8_t code)
{
    uint8_t stream[HT1621_COMMANDS_BYTES(1)];
    put(chip, stream, ht1621_commands(chip[HT1621_AT_PART], &code, 1, stream, sizeof stream));
}

/* The header's name of each command, by a byte of the settings before and after it, in both parts. */
static void named_commands(void)
{
    static const struct {
        uint8_t code, at, before, after;
    } named[] = {
        {HT1621_SYS_DIS, HT1621_AT_SYSTEM, 1, 0},        {HT1621_SYS_EN, HT1621_AT_SYSTEM, 0, 1},
        {HT1621_LCD_OFF, HT1621_AT_LCD, 1, 0},           {HT1621_LCD_ON, HT1621_AT_LCD, 0, 1},
        {HT1621_TIMER_DIS, HT1621_AT_IRQ_SOURCE, 1, 0},  {HT1621_TIMER_DIS, HT1621_AT_IRQ_SOURCE, 2, 2},
        {HT1621_WDT_DIS, HT1621_AT_IRQ_SOURCE, 2, 0},    {HT1621_WDT_DIS, HT1621_AT_IRQ_SOURCE, 1, 1},
        {HT1621_TIMER_EN, HT1621_AT_IRQ_SOURCE, 0, 1},   {HT1621_WDT_EN, HT1621_AT_IRQ_SOURCE, 0, 2},
        {HT1621_TONE_OFF, HT1621_AT_TONE, 1, 0},         {HT1621_TONE_ON, HT1621_AT_TONE, 0, 1},
        {HT1621_CLR_TIMER, HT1621_AT_B, 9, 0},           {HT1621_CLR_TIMER, HT1621_AT_W, 3, 3},
        {HT1621_CLR_WDT, HT1621_AT_B, 9, 0},             {HT1621_CLR_WDT, HT1621_AT_W, 3, 0},
        {HT1621_XTAL, HT1621_AT_SOURCE, 1, 0},           {HT1621_RC, HT1621_AT_SOURCE, 0, 1},
        {HT1621_EXT, HT1621_AT_SOURCE, 0, 2},            {HT1621_BIAS_2_2, HT1621_AT_BIAS, 3, 2},
        {HT1621_BIAS_2_3, HT1621_AT_BIAS, 3, 2},         {HT1621_BIAS_2_4, HT1621_AT_BIAS, 3, 2},
        {HT1621_BIAS_3_2, HT1621_AT_BIAS, 2, 3},         {HT1621_BIAS_3_3, HT1621_AT_BIAS, 2, 3},
        {HT1621_BIAS_3_4, HT1621_AT_BIAS, 2, 3},         {HT1621_BIAS_2_2, HT1621_AT_COMMONS, 4, 2},
        {HT1621_BIAS_2_3, HT1621_AT_COMMONS, 4, 3},      {HT1621_BIAS_2_4, HT1621_AT_COMMONS, 2, 4},
        {HT1621_BIAS_3_2, HT1621_AT_COMMONS, 4, 2},      {HT1621_BIAS_3_3, HT1621_AT_COMMONS, 4, 3},
        {HT1621_BIAS_3_4, HT1621_AT_COMMONS, 2, 4},      {HT1621_TONE_4K, HT1621_AT_PITCH, 2, 4},
        {HT1621_TONE_2K, HT1621_AT_PITCH, 4, 2},         {HT1621_IRQ_DIS, HT1621_AT_IRQ, 1, 0},
        {HT1621_IRQ_DIS, HT1621_AT_FLAG, 1, 0},          {HT1621_IRQ_DIS, HT1621_AT_W, 3, 3},
        {HT1621_IRQ_EN, HT1621_AT_IRQ, 0, 1},            {HT1621_IRQ_EN, HT1621_AT_FLAG, 1, 1},
        {HT1621_F1, HT1621_AT_RATE, 7, 0},               {HT1621_F2, HT1621_AT_RATE, 7, 1},
        {HT1621_F4, HT1621_AT_RATE, 7, 2},               {HT1621_F8, HT1621_AT_RATE, 7, 3},
        {HT1621_F16, HT1621_AT_RATE, 7, 4},              {HT1621_F32, HT1621_AT_RATE, 7, 5},
        {HT1621_F64, HT1621_AT_RATE, 7, 6},              {HT1621_F128, HT1621_AT_RATE, 0, 7},
        {HT1621_TEST, HT1621_AT_TEST, 0, 1},             {HT1621_NORMAL, HT1621_AT_TEST, 1, 0},
        /* what a sketch's 0x52, 0x02 and 0x06 are taken for: TONE 4K, LCD OFF, TIMER EN */
        {0x52, HT1621_AT_PITCH, 2, 4},                   {0x02, HT1621_AT_LCD, 1, 0},
        {0x06, HT1621_AT_IRQ_SOURCE, 0, 1},
    };
    static const uint8_t sketch[6] = {0x52, 0x02, 0x06, 0x30, 0x10, 0x0A};
    static const uint8_t ours[6] = {HT1621_BIAS_3_4, HT1621_SYS_EN, HT1621_LCD_ON, HT1621_RC, HT1621_TONE_OFF, HT1621_WDT_DIS};
    uint8_t memory[HT1621_ADDRESSES] = {0}, chip[HT1621_RECORD_BYTES], out[ROOM];
    for (size_t i = 0; i < sizeof named / sizeof named[0]; i++)
        for (uint8_t part = 0; part < 2; part++) {
            uint8_t code = part == HT1621_PART_GN && named[i].code == HT1621_CLR_TIMER ? HT1621_GN_CLR_TIMER : named[i].code;
            powered(chip, part, memory);
            chip[named[i].at] = named[i].before;
            command(chip, code);
            CHECK(chip[named[i].at] == named[i].after);
        }
    for (size_t i = 0; i < sizeof ours; i++) {
        uint32_t due = i < 3 ? 27 : refused(24, 0);
        CHECK(sketch[i] == 2 * ours[i] && ht1621_commands(HT1621_PART_HT, &sketch[i], 1, out, sizeof out) == due);
    }
}

/* What the stream of one command returns at the sample that completes it; the chip is of whichever part. */
static uint32_t completed(uint8_t *chip, const uint8_t *stream)
{
    uint32_t returned;
    put(chip, stream, 25);
    returned = step(chip, HT1621_RECORD_BYTES, stream[25]);
    put(chip, stream + 26, 1);
    return returned;
}

/* 0A to 0D as streams for each part, and on a chip of each. 8 + 18 is the sample that completes the command. */
static void codes_of_parts(void)
{
    uint8_t memory[HT1621_ADDRESSES] = {0}, chip[HT1621_RECORD_BYTES], stream[HT1621_COMMANDS_BYTES(1)];
    for (uint8_t code = 0x0A; code <= 0x0D; code++)
        for (uint8_t told = 0; told < 2; told++) {
            uint8_t has = code <= 0x0B ? HT1621_PART_GN : HT1621_PART_HT;
            struct lent o = lend(sizeof stream);
            CHECK(ht1621_commands(told, &code, 1, o.body, o.bytes) == (told == has ? 27 : refused(24, 0)));
            CHECK(intact(o, told == has ? 27 : 0));
            CHECK(ht1621_commands(has, &code, 1, stream, sizeof stream) == 27);
            powered(chip, told, memory);
            chip[HT1621_AT_D] = 9, chip[HT1621_AT_B] = 200, chip[HT1621_AT_W] = 2;
            CHECK(completed(chip, stream) == (told == has ? 6u : 7u) + 256u * code);
            CHECK(chip[HT1621_AT_D] == (told == has ? 0 : 9) && chip[HT1621_AT_B] == (told == has ? 0 : 200));
            CHECK(chip[HT1621_AT_W] == 2 && chip[HT1621_AT_PART] == told);
        }
}

/* Counter and common after so many ticks. */
static int scan_after(const uint8_t *chip, uint16_t ticks, uint8_t counter, uint8_t common)
{
    uint8_t later[HT1621_RECORD_BYTES];
    memcpy(later, chip, sizeof later);
    CHECK(advance(later, sizeof later, ticks) == 0);
    return later[HT1621_AT_SCAN] == counter && later[HT1621_AT_COMMON] == common && later[HT1621_AT_PART] == chip[HT1621_AT_PART];
}

/* The scan of a part at the end of common 1 of 2, with LCD and time base off: it stands while the chip does not run, goes on with
   each base tick, and is begun anew by 20 to 2B alone. */
static void scans(uint8_t part)
{
    static const uint8_t others[] = {HT1621_SYS_EN, HT1621_LCD_ON, HT1621_LCD_OFF, HT1621_TIMER_DIS, HT1621_WDT_DIS, HT1621_TONE_ON,
                                     HT1621_TONE_OFF, HT1621_CLR_WDT, HT1621_TONE_2K, HT1621_IRQ_EN, HT1621_IRQ_DIS, HT1621_F1,
                                     HT1621_TEST, HT1621_NORMAL, HT1621_XTAL, HT1621_EXT, HT1621_SYS_DIS, HT1621_RC};
    uint8_t memory[HT1621_ADDRESSES] = {0}, chip[HT1621_RECORD_BYTES], end = last[part];
    powered(chip, part, memory);
    chip[HT1621_AT_SCAN] = end, chip[HT1621_AT_COMMON] = 1;
    CHECK(scan_after(chip, 65535, end, 1));
    for (size_t i = 0; i < sizeof others; i++) {
        command(chip, others[i]);
        CHECK(chip[HT1621_AT_SCAN] == end && chip[HT1621_AT_COMMON] == 1);
    }
    CHECK(scan_after(chip, 7, end, 1) && scan_after(chip, 8, 0, 0) && scan_after(chip, 15, 0, 0) && scan_after(chip, 16, 1, 0));
    command(chip, HT1621_XTAL);
    CHECK(chip[HT1621_AT_BASE] == 0 && chip[HT1621_AT_LCD] == 0);
    CHECK(scan_after(chip, 1, 0, 0) && scan_after(chip, 2, 1, 0) && scan_after(chip, 1 + end, end, 0) && scan_after(chip, 2 + end, 0, 1));
    for (uint8_t code = 0x20; code <= 0x2B; code++) {
        chip[HT1621_AT_SCAN] = end, chip[HT1621_AT_COMMON] = 1;
        command(chip, code);
        CHECK(chip[HT1621_AT_SCAN] == 0 && chip[HT1621_AT_COMMON] == 0 && chip[HT1621_AT_COMMONS] == 2 + (code - 0x20) / 4);
    }
}

/* A session with a GN: powered on, told its commands, left to itself, and its time base cleared. */
static void gn_session(void)
{
    static const uint8_t start[] = {HT1621_SYS_EN, HT1621_XTAL, HT1621_BIAS_3_3, HT1621_LCD_ON, HT1621_TIMER_EN, HT1621_GN_CLR_TIMER};
    static const uint8_t of_ht[] = {HT1621_SYS_EN, HT1621_XTAL, HT1621_CLR_TIMER};
    uint8_t memory[HT1621_ADDRESSES] = {0}, chip[HT1621_RECORD_BYTES], ht[HT1621_RECORD_BYTES], stream[ROOM];
    CHECK(ht1621_power_on(HT1621_PART_GN, memory, sizeof memory, chip, sizeof chip) == 64);
    CHECK(ht1621_commands(HT1621_PART_GN, of_ht, sizeof of_ht, stream, sizeof stream) == refused(24, 2));
    CHECK(ht1621_commands(HT1621_PART_HT, start, sizeof start, stream, sizeof stream) == refused(24, 5));
    uint32_t samples = ht1621_commands(HT1621_PART_GN, start, sizeof start, stream, sizeof stream);
    CHECK(samples == HT1621_COMMANDS_BYTES(sizeof start));
    put(chip, stream, samples);
    CHECK(chip[HT1621_AT_COMMONS] == 3 && chip[HT1621_AT_SCAN] == 0 && chip[HT1621_AT_COMMON] == 0);
    CHECK(scan_after(chip, 95, 95, 0) && scan_after(chip, 96, 0, 1) && scan_after(chip, 287, 95, 2) && scan_after(chip, 288, 0, 0));
    memcpy(ht, chip, sizeof ht);
    ht[HT1621_AT_PART] = HT1621_PART_HT;
    CHECK(scan_after(ht, 96, 96, 0) && scan_after(ht, 127, 127, 0) && scan_after(ht, 128, 0, 1) && scan_after(ht, 384, 0, 0));

    /* 250 ticks, of 96 each: the counter at 58 of common 2; then CLR TIMER, to the GN and to an HT */
    CHECK(advance(chip, sizeof chip, 250) == 0 && advance(ht, sizeof ht, 250) == 0);
    CHECK(chip[HT1621_AT_SCAN] == 58 && chip[HT1621_AT_COMMON] == 2 && ht[HT1621_AT_SCAN] == 122 && ht[HT1621_AT_COMMON] == 1);
    CHECK(ht1621_commands(HT1621_PART_GN, start + 5, 1, stream, sizeof stream) == 27);
    CHECK(completed(chip, stream) == HT1621_COMMAND_OBEYED + 256 * 0x0A);
    CHECK(completed(ht, stream) == HT1621_COMMAND_UNDEFINED + 256 * 0x0A);
    CHECK(chip[HT1621_AT_D] == 0 && chip[HT1621_AT_B] == 0 && ht[HT1621_AT_D] == 250 - 128 && ht[HT1621_AT_B] == 250);
    CHECK(chip[HT1621_AT_SCAN] == 58 && chip[HT1621_AT_COMMON] == 2);

    /* the commons that it has are set again, with the other bias: the scan begins anew */
    command(chip, HT1621_BIAS_2_3);
    CHECK(chip[HT1621_AT_COMMONS] == 3 && chip[HT1621_AT_SCAN] == 0 && chip[HT1621_AT_COMMON] == 0);

    /* the counter of an HT at 96 is none of a GN */
    ht[HT1621_AT_SCAN] = 96;
    CHECK(step(ht, sizeof ht, 15) == HT1621_NOTHING);
    ht[HT1621_AT_PART] = HT1621_PART_GN;
    CHECK(step(ht, sizeof ht, 15) == HT1621_MALFORMED);
}

static uint32_t irq_after(const uint8_t *chip, uint16_t ticks)
{
    uint8_t later[HT1621_RECORD_BYTES], cells[HT1621_ADDRESSES];
    memcpy(later, chip, sizeof later);
    CHECK(advance(later, sizeof later, ticks) == 0);
    return HT1621_PINS_IRQ_LOW(pins(later, sizeof later, cells, sizeof cells));
}

/* The cases of the rules, (a), (b), (f) to (j), on the linked chip; (c), (d), (e) and (k) are among the streams above. */
static void cases(void)
{
    uint8_t memory[HT1621_ADDRESSES] = {0}, chip[HT1621_RECORD_BYTES];
    ht1621_power_on(HT1621_PART_HT, memory, sizeof memory, chip, sizeof chip);
    CHECK(step(chip, sizeof chip, 15) == HT1621_NOTHING);
    CHECK(step(chip, sizeof chip, 16) == HT1621_SAMPLE_ABOVE);
    CHECK(step(chip, sizeof chip, 14) == HT1621_FRAME_OPENED);
    command(chip, 0x2B);
    CHECK(chip[HT1621_AT_COMMONS] == 4 && chip[HT1621_AT_BIAS] == 3);
    command(chip, HT1621_SYS_EN);
    command(chip, HT1621_TIMER_EN);
    command(chip, HT1621_IRQ_EN);
    CHECK(irq_after(chip, 1023) == 0 && irq_after(chip, 1024) == 1);
    command(chip, HT1621_XTAL);
    CHECK(irq_after(chip, 127) == 0 && irq_after(chip, 128) == 1);
    command(chip, HT1621_WDT_EN);
    CHECK(irq_after(chip, 1023) == 0 && irq_after(chip, 1024) == 1);
    CHECK(advance(chip, sizeof chip, 300) == 0 && chip[HT1621_AT_B] == 44 && chip[HT1621_AT_W] == 1);
    command(chip, 0x0D);
    CHECK(chip[HT1621_AT_B] == 0 && chip[HT1621_AT_W] == 1);
    command(chip, 0x0F);
    CHECK(chip[HT1621_AT_B] == 0 && chip[HT1621_AT_W] == 0);
}

/* A time-out that IRQ DIS lets go of: after IRQ EN the pin floats until w has come round once more, 1,024 base ticks after the last. */
static void time_out(void)
{
    static const uint8_t begun[] = {HT1621_SYS_EN, HT1621_XTAL, HT1621_WDT_EN, HT1621_IRQ_EN};
    uint8_t memory[HT1621_ADDRESSES] = {0}, chip[HT1621_RECORD_BYTES];
    powered(chip, HT1621_PART_HT, memory);
    for (size_t i = 0; i < sizeof begun; i++)
        command(chip, begun[i]);
    CHECK(advance(chip, sizeof chip, 1024) == 0 && irq_after(chip, 0) == 1);
    command(chip, HT1621_IRQ_DIS);
    CHECK(irq_after(chip, 0) == 0 && irq_after(chip, 1024) == 0);
    CHECK(advance(chip, sizeof chip, 300) == 0);
    command(chip, HT1621_IRQ_EN);
    CHECK(irq_after(chip, 0) == 0 && irq_after(chip, 723) == 0 && irq_after(chip, 724) == 1);
}

/* A cell shows where the chip runs, the LCD is on, the common is driven, and the memory has a 1; by the commands given so far,
   in each part, and wherever the scan stands. */
static void glass(uint8_t part)
{
    static const struct {
        uint8_t code, shown;
    } given[] = {{0x01, 0}, {0x03, 3}, {0x25, 7}, {0x28, 15}, {0x21, 3}, {0x02, 0}, {0x03, 3}, {0x00, 0}};
    uint8_t memory[HT1621_ADDRESSES], chip[HT1621_RECORD_BYTES], cells[HT1621_ADDRESSES];
    for (size_t i = 0; i < sizeof memory; i++)
        memory[i] = (uint8_t)(i * 5 % 16);
    ht1621_power_on(part, memory, sizeof memory, chip, sizeof chip);
    for (size_t k = 0; k < sizeof given / sizeof given[0]; k++) {
        command(chip, given[k].code);
        CHECK(advance(chip, sizeof chip, 1000) == 0);
        CHECK(!HT1621_PINS_REFUSED(pins(chip, sizeof chip, cells, sizeof cells)));
        for (size_t i = 0; i < sizeof cells; i++)
            CHECK(cells[i] == (memory[i] & given[k].shown));
    }
}

/* A bit sent as the streams send it, and a bit read: what the sample with the edge returns. */
static uint32_t bit_sent(uint8_t *chip, unsigned bit)
{
    CHECK(step(chip, HT1621_RECORD_BYTES, (uint8_t)(4 + 8 * bit)) == HT1621_NOTHING);
    return step(chip, HT1621_RECORD_BYTES, (uint8_t)(6 + 8 * bit));
}

static uint32_t bit_read(uint8_t *chip)
{
    uint32_t returned = step(chip, HT1621_RECORD_BYTES, 10);
    CHECK(step(chip, HT1621_RECORD_BYTES, 14) == HT1621_NOTHING);
    return returned;
}

/* What the last of a nibble's four bits returns. */
static uint32_t nibble_sent(uint8_t *chip, unsigned nibble)
{
    for (int place = 0; place < 3; place++)
        CHECK(bit_sent(chip, nibble >> place & 1) == HT1621_BIT_TAKEN);
    return bit_sent(chip, nibble >> 3);
}

/* A frame of the host's own, with an ID of three bits and a first address of six. */
static void open_frame(uint8_t *chip, unsigned id, unsigned first)
{
    CHECK(step(chip, HT1621_RECORD_BYTES, 14) == HT1621_FRAME_OPENED);
    for (int place = 8; place >= 0; place--)
        CHECK(bit_sent(chip, (64 * id + first) >> place & 1) == HT1621_BIT_TAKEN);
}

/* A write from 30 on: two nibbles are stored, 32 are answered and lie nowhere, and the next two are stored at 0 and 1. */
static void write_past_the_memory(uint8_t *chip)
{
    open_frame(chip, 5, 30);
    CHECK(nibble_sent(chip, 9) == 5 + 256 * 30 + 65536 * 9);
    CHECK(nibble_sent(chip, 1) == 5 + 256 * 31 + 65536 * 1);
    for (unsigned address = 32; address < 64; address++)
        CHECK(nibble_sent(chip, 15) == 5 + 256 * address + 65536 * 15);
    CHECK(nibble_sent(chip, 2) == 5 + 256 * 0 + 65536 * 2);
    CHECK(nibble_sent(chip, 3) == 5 + 256 * 1 + 65536 * 3);
    CHECK(step(chip, HT1621_RECORD_BYTES, 15) == HT1621_FRAME_CLOSED);
    CHECK(chip[0] == 2 && chip[1] == 3 && chip[30] == 9 && chip[31] == 1);
    for (size_t address = 2; address < 30; address++)
        CHECK(chip[address] == 6);
}

/* A read of that from 30 on: 9 and 1, D0 first, then 128 zeros that the chip drives, and then the 2 of address 0. */
static void read_past_the_memory(uint8_t *chip)
{
    static const uint8_t bits_30[4] = {1, 0, 0, 1}, bits_31[4] = {1, 0, 0, 0}, bits_0[4] = {0, 1, 0, 0};
    uint8_t cells[HT1621_ADDRESSES];
    open_frame(chip, 6, 30);
    for (size_t place = 0; place < 4; place++)
        CHECK(bit_read(chip) == 8 + 256 * 30 + 65536u * bits_30[place]);
    for (size_t place = 0; place < 4; place++)
        CHECK(bit_read(chip) == 8 + 256 * 31 + 65536u * bits_31[place]);
    for (unsigned i = 0; i < 128; i++) {
        CHECK(bit_read(chip) == 8 + 256 * (32 + i / 4));
        CHECK(HT1621_PINS_DATA(pins(chip, HT1621_RECORD_BYTES, cells, sizeof cells)) == 1);
    }
    for (size_t place = 0; place < 4; place++)
        CHECK(bit_read(chip) == 8 + 256 * 0 + 65536u * bits_0[place]);
    CHECK(step(chip, HT1621_RECORD_BYTES, 15) == HT1621_FRAME_CLOSED);
}

/* Reads in a write frame at 40 are of zeros, over and over; the nibble sent there lies nowhere, and bits left over are cut. */
static void modify_past_the_memory(uint8_t *chip)
{
    uint8_t before[HT1621_ADDRESSES];
    memcpy(before, chip, sizeof before);
    open_frame(chip, 5, 40);
    for (int i = 0; i < 5; i++)
        CHECK(bit_read(chip) == 8 + 256 * 40);
    CHECK(chip[HT1621_AT_ADDRESS] == 40 && chip[HT1621_AT_POSITION] == 1 && chip[HT1621_AT_DATA] == 1);
    CHECK(nibble_sent(chip, 13) == 5 + 256 * 40 + 65536 * 13);
    CHECK(chip[HT1621_AT_ADDRESS] == 41 && chip[HT1621_AT_POSITION] == 0 && chip[HT1621_AT_DATA] == 0);
    CHECK(bit_sent(chip, 1) == HT1621_BIT_TAKEN);
    CHECK(step(chip, HT1621_RECORD_BYTES, 15) == HT1621_FRAME_CUT);
    CHECK(memcmp(chip, before, sizeof before) == 0);
}

/* Frames that go past the memory, on a chip whose nibbles are all 6 at first. */
static void past_the_memory(void)
{
    uint8_t memory[HT1621_ADDRESSES], chip[HT1621_RECORD_BYTES];
    memset(memory, 6, sizeof memory);
    powered(chip, HT1621_PART_HT, memory);
    write_past_the_memory(chip);
    read_past_the_memory(chip);
    modify_past_the_memory(chip);
}

/* A write stopped after every number of its samples with ticks between: new values in front, old ones behind, settings and
   counters, the scan's among them, as a twin has them that gets the ticks alone; then resent. */
static void interrupted(uint8_t part)
{
    uint8_t memory[HT1621_ADDRESSES], start[HT1621_RECORD_BYTES], stream[ROOM], nibbles[20];
    const size_t first = 7, count = sizeof nibbles;
    for (size_t i = 0; i < sizeof memory; i++)
        memory[i] = (uint8_t)(i % 16);
    for (size_t i = 0; i < count; i++)
        nibbles[i] = (uint8_t)(15 - (first + i) % 16);
    ht1621_power_on(part, memory, sizeof memory, start, sizeof start);
    command(start, HT1621_SYS_EN);
    command(start, HT1621_XTAL);
    command(start, HT1621_WDT_EN);
    uint32_t samples = ht1621_write(first, nibbles, count, stream, sizeof stream);
    for (uint32_t stop = 0; stop <= samples; stop++) {
        uint8_t chip[HT1621_RECORD_BYTES], twin[HT1621_RECORD_BYTES];
        size_t done = stop < 28 ? 0 : (stop - 20) / 8;
        memcpy(chip, start, sizeof chip);
        memcpy(twin, start, sizeof twin);
        for (uint32_t i = 0; i < stop; i++) {
            put(chip, stream + i, 1);
            advance(chip, sizeof chip, (uint16_t)(i * 7));
            advance(twin, sizeof twin, (uint16_t)(i * 7));
        }
        CHECK(memcmp(chip + first, nibbles, done) == 0);
        CHECK(memcmp(chip, memory, first) == 0);
        CHECK(memcmp(chip + first + done, memory + first + done, sizeof memory - first - done) == 0);
        CHECK(memcmp(chip + HT1621_AT_SYSTEM, twin + HT1621_AT_SYSTEM, HT1621_AT_ZEROS - HT1621_AT_SYSTEM) == 0);
        uint32_t ticks = stop * (stop - 1) / 2 * 7, scanned = last[part] + 1u; /* each a base tick, from the crystal */
        CHECK(chip[HT1621_AT_SCAN] == ticks % scanned && chip[HT1621_AT_COMMON] == ticks / scanned % 2);
        put(chip, stream, samples);
        CHECK(memcmp(chip + first, nibbles, count) == 0);
    }
}

int main(void)
{
    damaged_records();
    streams();
    commands_and_notes();
    unknown_parts();
    refusals();
    pointers();
    named_commands();
    codes_of_parts();
    scans(HT1621_PART_HT);
    scans(HT1621_PART_GN);
    gn_session();
    cases();
    time_out();
    glass(HT1621_PART_HT);
    glass(HT1621_PART_GN);
    past_the_memory();
    interrupted(HT1621_PART_HT);
    interrupted(HT1621_PART_GN);
    printf("host.c: %lu facts of the rules hold of the linked libraries\n", checks);
    return 0;
}
