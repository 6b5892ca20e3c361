/* How much stack each call takes, at most: it runs on a stack of ours, painted before and looked at after. Prints a line for each
   call, its name and the bytes below those of a call that does nothing. */
#define _XOPEN_SOURCE 700
#include <stdio.h>
#include <stdlib.h>
#include <string.h>
#include <ucontext.h>

#include "ht1621_chip.h"
#include "ht1621_host.h"

enum { STACK = 1 << 16, PAINT = 0xa5, ROOM = 700 };

static uint8_t stack[STACK], record[HT1621_RECORD_BYTES], out[ROOM];
static ucontext_t caller, callee;

static void (*tried)(void);

static void nothing(void) {}

/* What begins and ends a context uses stack as well: the call is made deeper than that goes. */
static void deeper(void)
{
    volatile uint8_t below[4096];
    below[0] = 0;
    tried();
    below[sizeof below - 1] = 0;
}

/* Every sample of a stream: all phases, and every way through a step but those of a refusal. */
static void step_through(const uint8_t *samples, uint32_t count)
{
    for (uint32_t i = 0; i < count; i++)
        ht1621_step(record, sizeof record, samples[i]);
}

static uint8_t write_stream[ROOM], read_stream[ROOM], command_stream[ROOM], gn_stream[ROOM];
static uint8_t write_past[ROOM], read_past[ROOM]; /* with A5 set: past the memory */
static uint32_t written, reading, commanding, gn_commanding;
static const uint8_t zeros[4 * HT1621_ADDRESSES];
static const uint8_t commands[] = {
    HT1621_SYS_EN, HT1621_TIMER_EN, HT1621_WDT_EN, HT1621_TONE_ON, HT1621_BIAS_3_4, HT1621_CLR_WDT, HT1621_F1, HT1621_IRQ_EN};
static const uint8_t gn_commands[] = {HT1621_GN_CLR_TIMER, HT1621_BIAS_2_2};

/* Makes the record one of this part. */
static void become(uint8_t part)
{
    record[HT1621_AT_PART] = part;
    record[HT1621_AT_SCAN] = 0;
}

static void all_steps(void)
{
    for (uint8_t part = HT1621_PART_HT; part <= HT1621_PART_GN; part++) {
        become(part);
        step_through(write_stream, written);
        step_through(read_stream, reading);
        step_through(write_past, written);
        step_through(read_past, reading);
        step_through(command_stream, commanding);
        step_through(gn_stream, gn_commanding);
    }
    ht1621_step(record, sizeof record, 16);
    ht1621_step(record, 1, 0);
}
/* From every part, source, rate and number of commons, with the system and the time base on and off. */
static void all_advances(void)
{
    for (unsigned kind = 0; kind < 2 * 2 * 2 * 3 * 8 * 3; kind++) {
        become(kind % 2);
        record[HT1621_AT_SYSTEM] = kind / 2 % 2;
        record[HT1621_AT_BASE] = kind / 4 % 2;
        record[HT1621_AT_SOURCE] = kind / 8 % 3;
        record[HT1621_AT_RATE] = kind / 24 % 8;
        record[HT1621_AT_COMMONS] = 2 + kind / 192;
        record[HT1621_AT_COMMON] = 0;
        for (uint32_t n = 0; n < 65536; n += 4369)
            if (ht1621_advance(record, sizeof record, (uint16_t)n) != 0)
                exit(1);
    }
}
static void all_pins(void) { ht1621_pins(record, sizeof record, out, sizeof out); }
static void power_on(void)
{
    for (size_t part = HT1621_PART_HT; part <= HT1621_PART_GN + 1; part++)
        ht1621_power_on(part, zeros, HT1621_ADDRESSES, record, sizeof record);
}
static void all_writes(void)
{
    for (size_t n = 0; n <= HT1621_ADDRESSES; n++)
        ht1621_write(0, zeros, n, out, sizeof out);
}
static void all_reads(void)
{
    for (size_t n = 0; n <= HT1621_ADDRESSES; n++)
        ht1621_read(0, n, out, sizeof out);
}
static void all_commands(void)
{
    for (size_t n = 0; n <= sizeof commands; n++)
        for (size_t part = HT1621_PART_HT; part <= HT1621_PART_GN + 1; part++)
            ht1621_commands(part, commands, n, out, sizeof out);
}
static void all_decodes(void)
{
    for (size_t n = 0; n <= sizeof zeros; n += 4)
        ht1621_decode(zeros, n, out, sizeof out);
}

/* How far down the stack a function goes. */
static size_t depth(void (*function)(void))
{
    size_t untouched = 0;
    memset(stack, PAINT, sizeof stack);
    tried = function;
    if (getcontext(&callee) != 0)
        exit(1);
    callee.uc_stack.ss_sp = stack;
    callee.uc_stack.ss_size = sizeof stack;
    callee.uc_link = &caller;
    makecontext(&callee, deeper, 0);
    if (swapcontext(&caller, &callee) != 0)
        exit(1);
    while (untouched < sizeof stack && stack[untouched] == PAINT)
        untouched++;
    return sizeof stack - untouched;
}

int main(void)
{
    static const struct {
        const char *name;
        void (*function)(void);
    } calls[] = {{"ht1621_power_on", power_on}, {"ht1621_step", all_steps}, {"ht1621_advance", all_advances}, {"ht1621_pins", all_pins},
                 {"ht1621_write", all_writes}, {"ht1621_read", all_reads}, {"ht1621_commands", all_commands}, {"ht1621_decode", all_decodes}};
    written = ht1621_write(0, zeros, HT1621_ADDRESSES, write_stream, sizeof write_stream);
    reading = ht1621_read(0, HT1621_ADDRESSES, read_stream, sizeof read_stream);
    memcpy(write_past, write_stream, sizeof write_past);
    memcpy(read_past, read_stream, sizeof read_past);
    write_past[8] = read_past[8] = 12; /* the two samples of A5 */
    write_past[9] = read_past[9] = 14;
    commanding = ht1621_commands(HT1621_PART_HT, commands, sizeof commands, command_stream, sizeof command_stream);
    gn_commanding = ht1621_commands(HT1621_PART_GN, gn_commands, sizeof gn_commands, gn_stream, sizeof gn_stream);
    for (size_t i = 0; i < sizeof calls / sizeof calls[0]; i++)
        printf("%s %lu\n", calls[i].name, (unsigned long)(depth(calls[i].function) - depth(nothing)));
    return 0;
}
