/* A host that has a step, an advance and pins of its own: the chip's calls are others, and are the ones that are called. */
#include <stdio.h>

#include <ht1621_chip.h>
#include <ht1621_host.h>

#if HT1621_VERSION_NUMBER < 10000
#error "no such version"
#endif

int pins = 4;
int step(int by) { return by; }
int advance(int by) { return by + 1; }

int main(void)
{
    uint8_t memory[HT1621_ADDRESSES] = {0}, chip[HT1621_RECORD_BYTES];
    ht1621_power_on(HT1621_PART_HT, memory, sizeof memory, chip, sizeof chip);
    printf("%d %d %d, ", step(2), advance(2), pins);
    printf("%u, ", (unsigned)ht1621_step(chip, sizeof chip, 14));
    printf("%u, ", (unsigned)ht1621_advance(chip, sizeof chip, 1));
    printf("%u\n", (unsigned)ht1621_pins(chip, sizeof chip, memory, sizeof memory));
    return 0;
}
