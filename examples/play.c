/* Streams played as a controller plays them, a pin at a time and with the data sheet's times at 3 V; docs/PLAYING.md says why so. The
   board here is the model of the chip: on another board the functions under "the board" are all there is to change. */
#include <stdio.h>
#include <stdlib.h>
#include <string.h>

#include "ht1621_chip.h"
#include "ht1621_host.h"

/* ---- the board: four pins, and a clock ---- */

static uint8_t chip[HT1621_RECORD_BYTES], levels = 15;
static int data_is_output = 1;
static unsigned long passed_ns;

/* On no board may two drive one line. */
static void look(void)
{
    if (data_is_output && chip[HT1621_AT_DATA] != 0) {
        printf("DATA is driven from both sides\n");
        exit(EXIT_FAILURE);
    }
}

static void set_pin(uint8_t line, int high)
{
    levels = (uint8_t)(high ? levels | line : levels & ~line);
    ht1621_step(chip, sizeof chip, levels);
    look();
}

static void data_as_input(void) { data_is_output = 0; }
static void data_as_output(void)
{
    data_is_output = 1;
    look();
}
static int data_pin(void) { return chip[HT1621_AT_DATA] == 2; }
static void wait_ns(unsigned long ns) { passed_ns += ns; }

/* ---- the player ---- */

enum { WRITE_HALF_NS = 3340, READ_HALF_NS = 6670 };

/* Plays a stream. Notes DATA after each rise of RD, and returns how many bytes it noted. */
static size_t play(const uint8_t *stream, size_t samples, unsigned long half_ns, uint8_t *noted)
{
    static const uint8_t lines[4] = {HT1621_DATA, HT1621_WR, HT1621_RD, HT1621_CS};
    uint8_t now = 15;
    size_t notes = 0;
    for (size_t i = 0; i < samples; i++) {
        uint8_t next = stream[i], changed = now ^ next;
        if (!(next & HT1621_RD))
            data_as_input();
        for (size_t line = 0; line < sizeof lines; line++)
            if (changed & lines[line])
                set_pin(lines[line], (next & lines[line]) != 0);
        if (next & HT1621_CS)
            data_as_output();
        wait_ns(half_ns);
        if (changed & next & HT1621_RD)
            noted[notes++] = (uint8_t)data_pin();
        now = next;
    }
    return notes;
}

int main(void)
{
    uint8_t memory[HT1621_ADDRESSES] = {0}, picture[HT1621_ADDRESSES], back[HT1621_ADDRESSES];
    uint8_t stream[HT1621_STREAM_BYTES(HT1621_ADDRESSES)], noted[4 * HT1621_ADDRESSES];
    for (size_t i = 0; i < sizeof picture; i++)
        picture[i] = (uint8_t)(i * 7 % 16);
    ht1621_power_on(HT1621_PART_HT, memory, sizeof memory, chip, sizeof chip);

    uint32_t samples = ht1621_write(0, picture, sizeof picture, stream, sizeof stream);
    if (HT1621_WRITE_REFUSED(samples))
        return EXIT_FAILURE;
    play(stream, samples, WRITE_HALF_NS, NULL);
    printf("written: %u samples in %lu us\n", (unsigned)samples, passed_ns / 1000);

    passed_ns = 0;
    samples = ht1621_read(0, sizeof picture, stream, sizeof stream);
    if (HT1621_READ_REFUSED(samples))
        return EXIT_FAILURE;
    size_t notes = play(stream, samples, READ_HALF_NS, noted);
    uint32_t nibbles = ht1621_decode(noted, notes, back, sizeof back);
    if (HT1621_DECODE_REFUSED(nibbles))
        return EXIT_FAILURE;
    printf("read: %u samples in %lu us, %s\n", (unsigned)samples, passed_ns / 1000,
           memcmp(back, picture, sizeof back) == 0 ? "as written" : "DIFFERENT");
    return EXIT_SUCCESS;
}
