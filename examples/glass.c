/* A first session with the HT1621 pack: a chip is powered on, initialised, given a picture, left to itself for a while and
   read back; then its glass is printed. The README has the build line. */
#include <stdio.h>
#include <stdlib.h>
#include <string.h>

#include "ht1621_chip.h"
#include "ht1621_host.h"

static const char picture[4][HT1621_ADDRESSES + 1] = {
    "..#.#.###..#...#...##...#.......",
    "..###..#..##..#.....#..##.......",
    "..#.#..#...#..###..#....#.......",
    "..#.#..#...#..###..##...#.......",
};

static void stop(const char *call, uint32_t result)
{
    fprintf(stderr, "%s refused: %u at %u\n", call, (unsigned)HT1621_REFUSAL(result), (unsigned)HT1621_PLACE(result));
    exit(1);
}

/* Puts a stream on the chip's lines; notes DATA where the host reads, and returns how many bytes it noted. */
static size_t put(uint8_t *chip, const uint8_t *stream, size_t samples, uint8_t *noted)
{
    size_t notes = 0;
    for (size_t i = 0; i < samples; i++) {
        uint32_t answer = ht1621_step(chip, HT1621_RECORD_BYTES, stream[i]);
        if (HT1621_STEP_REFUSED(answer))
            stop("step", answer);
        if (noted && i > 0 && stream[i - 1] == 10 && stream[i] == 14)
            noted[notes++] = chip[HT1621_AT_DATA] == 2;
    }
    return notes;
}

int main(void)
{
    static const uint8_t start[] = {HT1621_SYS_EN, HT1621_RC, HT1621_BIAS_3_4, HT1621_LCD_ON};
    uint8_t memory[HT1621_ADDRESSES] = {0}, chip[HT1621_RECORD_BYTES], stream[HT1621_STREAM_BYTES(HT1621_ADDRESSES)];
    uint8_t noted[4 * HT1621_ADDRESSES], nibbles[HT1621_ADDRESSES], cells[HT1621_ADDRESSES];

    uint32_t result = ht1621_power_on(HT1621_PART_HT, memory, sizeof memory, chip, sizeof chip);
    if (HT1621_POWER_ON_REFUSED(result))
        stop("power-on", result);

    result = ht1621_commands(HT1621_PART_HT, start, sizeof start, stream, sizeof stream);
    if (HT1621_COMMANDS_REFUSED(result))
        stop("commands", result);
    put(chip, stream, result, NULL);

    for (int seg = 0; seg < HT1621_ADDRESSES; seg++)
        for (int com = 0; com < 4; com++)
            memory[seg] |= (uint8_t)((picture[com][seg] == '#') << com);
    result = ht1621_write(0, memory, sizeof memory, stream, sizeof stream);
    if (HT1621_WRITE_REFUSED(result))
        stop("write", result);
    put(chip, stream, result, NULL);

    result = ht1621_advance(chip, sizeof chip, 1000);
    if (HT1621_ADVANCE_REFUSED(result))
        stop("advance", result);

    result = ht1621_read(0, sizeof memory, stream, sizeof stream);
    if (HT1621_READ_REFUSED(result))
        stop("read", result);
    size_t notes = put(chip, stream, result, noted);
    result = ht1621_decode(noted, notes, nibbles, sizeof nibbles);
    if (HT1621_DECODE_REFUSED(result))
        stop("decode", result);
    printf("read back: %s\n", memcmp(nibbles, memory, sizeof memory) == 0 ? "as written" : "DIFFERENT");

    uint32_t shown = ht1621_pins(chip, sizeof chip, cells, sizeof cells);
    if (HT1621_PINS_REFUSED(shown))
        stop("pins", shown);
    printf("IRQ %s, glass:\n", HT1621_PINS_IRQ_LOW(shown) ? "low" : "floats");
    for (int com = 0; com < 4; com++) {
        for (int seg = 0; seg < HT1621_ADDRESSES; seg++)
            putchar(cells[seg] >> com & 1 ? '#' : '.');
        putchar('\n');
    }
    return 0;
}
