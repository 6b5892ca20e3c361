/* The HT1621 pack: the chip, for a simulator. C99 and C++; link libht1621.a.

   A chip is a state record of 64 bytes that the caller keeps (ht1621.h lists them) and lends to each call; ht1621_power_on of
   ht1621_host.h makes one. Nothing is kept between calls, and nothing is allocated: chips may be stepped by several threads, each its
   own, and a record may be copied, stored and taken up again.

   A slice is a pointer and then the number of bytes that the call may touch: 64 for a record, no more and no fewer, and at least 32 for
   `cells`. It needs no alignment. A slice of 0 bytes may have any pointer, NULL too. Two slices of one call do not overlap.

   Every call looks at the record first and refuses with HT1621_MALFORMED bytes that are no state record. A refused call changes no byte. */
#ifndef HT1621_CHIP_H
#define HT1621_CHIP_H

#include <stddef.h>
#include <stdint.h>

#include "ht1621.h"

#ifdef __cplusplus
extern "C" {
#endif

/* Gives the chip one sample of its four lines. Returns the answer and its two details; HT1621_STEP_* take them apart. C cuts a
   number that is passed for a sample to its low eight bits: 271 arrives as 15.
   Refused (HT1621_STEP_REFUSED), in this order: HT1621_MALFORMED; HT1621_SAMPLE_ABOVE. Stack: at most 1024 bytes. */
uint32_t ht1621_step(uint8_t *record, size_t record_bytes, uint8_t sample);

#define HT1621_STEP_ANSWER(result) ((result) & 255u)
#define HT1621_STEP_FIRST(result) ((result) >> 8 & 255u)
#define HT1621_STEP_SECOND(result) ((result) >> 16 & 255u)

/* Lets so many ticks of the clock pass, one after the other, and returns 0. A tick is one period of the clock that is selected: of 32,768
   in a second with XTAL, of 256,000 with RC (as at power-on) or EXT, where eight ticks do what one does with XTAL. Ticks move the counters,
   and the scan (bytes 59 and 60) with the LCD on or off. While the chip does not
   run (system off, and not EXT) a tick changes nothing. C cuts a number above 65,535 to its low sixteen bits, 65,536 to 0: a second takes
   several calls at 256 kHz. Nothing loops over the ticks: 65,535 of them take the time and the stack that one takes.
   Refused (HT1621_ADVANCE_REFUSED): HT1621_MALFORMED. Stack: at most 256 bytes. */
uint32_t ht1621_advance(uint8_t *record, size_t record_bytes, uint16_t ticks);

/* Says what the pins do, and writes to the first 32 bytes of `cells` what the glass shows: bit c of byte s is the
   cell at SEG s and COM c. A longer `cells` is accepted, and no byte after the 32nd is touched. HT1621_PINS_* take the
   result apart.
   Refused (HT1621_PINS_REFUSED), in this order: HT1621_MALFORMED; HT1621_OUTPUT_SHORT, where `cells` is shorter than 32 bytes.
   Stack: at most 256 bytes. */
uint32_t ht1621_pins(const uint8_t *record, size_t record_bytes, uint8_t *cells, size_t cells_bytes);

#define HT1621_PINS_IRQ_LOW(result) ((result) & 1u)
#define HT1621_PINS_BZ_HIGH(result) ((result) >> 1 & 1u)
#define HT1621_PINS_PARTNER_HIGH(result) ((result) >> 2 & 1u)
#define HT1621_PINS_DATA(result) ((result) >> 3) /* 0 released, 1 low, 2 high */

#ifdef __cplusplus
}
#endif

#endif
