/* The HT1621 pack: the host's side, for who drives the chip. C99 and C++; link libht1621.a, or libhost.a, which has these five calls
   alone.

   The streams are samples, a byte each (ht1621.h), to be put on the lines one after the other (PLAYING.md, beside RULES.md). Nothing is kept
   between calls, and nothing is allocated.

   A slice is a pointer and then the number of bytes that the call may touch. It needs no alignment. A slice of 0 bytes may have any
   pointer, NULL too. Two slices of one call do not overlap.

   Every call returns the number of bytes that it wrote at the start of its output, and touches none after them; or it refuses,
   changes no byte, and HT1621_REFUSAL and HT1621_PLACE say why and where. */
#ifndef HT1621_HOST_H
#define HT1621_HOST_H

#include <stddef.h>
#include <stdint.h>

#include "ht1621.h"

#ifdef __cplusplus
extern "C" {
#endif

/* What the streams need: so many bytes for a write or a read of so many nibbles, and for so many commands. */
#define HT1621_STREAM_BYTES(nibbles) (21 + 8 * (nibbles))
#define HT1621_COMMANDS_BYTES(commands) (9 + 18 * (commands))

/* Writes the state record of a chip just powered on, of this part (HT1621_PART_*) and with this memory of 32 nibbles: 64 bytes.
   Refused (HT1621_POWER_ON_REFUSED), in this order: HT1621_UNKNOWN_PART; HT1621_MEMORY_COUNT; HT1621_NIBBLE_ABOVE with its place;
   HT1621_OUTPUT_SHORT. Stack: at most 128 bytes. */
uint32_t ht1621_power_on(size_t part, const uint8_t *memory, size_t memory_bytes, uint8_t *record, size_t record_bytes);

/* Writes the stream that stores nibbles, a byte each, from the address `first` on: HT1621_STREAM_BYTES of their number. Those of
   the memory are 0 to 31, and all that are written are among them.
   Refused (HT1621_WRITE_REFUSED), in this order: HT1621_NOTHING_ASKED; HT1621_ADDRESS_ABOVE; HT1621_RUNS_PAST_END;
   HT1621_NIBBLE_ABOVE with its place; HT1621_OUTPUT_SHORT. Stack: at most 1024 bytes. */
uint32_t ht1621_write(size_t first, const uint8_t *nibbles, size_t nibble_count, uint8_t *out, size_t out_bytes);

/* Writes the stream that reads `count` nibbles from the address `first` on: HT1621_STREAM_BYTES(count). Those of the memory are
   0 to 31, and all that are read are among them. The host notes DATA, 0 or 1, at each sample 14 that raises RD: four bytes a nibble.
   Refused (HT1621_READ_REFUSED), in this order: HT1621_NOTHING_ASKED; HT1621_ADDRESS_ABOVE; HT1621_RUNS_PAST_END;
   HT1621_OUTPUT_SHORT. Stack: at most 128 bytes. */
uint32_t ht1621_read(size_t first, size_t count, uint8_t *out, size_t out_bytes);

/* Writes the stream that gives up to 32 commands to a chip of this part (HT1621_PART_*), each by its code (ht1621.h):
   HT1621_COMMANDS_BYTES of their number. A code that only the other part has is refused as undefined. The part is that of the chip which
   gets the stream (byte HT1621_AT_PART of its record): one of the other part passes CLR TIMER over as undefined.
   Refused (HT1621_COMMANDS_REFUSED), in this order: HT1621_UNKNOWN_PART; HT1621_NOTHING_ASKED; HT1621_TOO_MANY_COMMANDS;
   HT1621_UNDEFINED_COMMAND with its place; HT1621_OUTPUT_SHORT. Stack: at most 768 bytes. */
uint32_t ht1621_commands(size_t part, const uint8_t *codes, size_t code_count, uint8_t *out, size_t out_bytes);

/* Makes nibbles of what a read noted, one for each four bytes, D0 first.
   Refused (HT1621_DECODE_REFUSED), in this order: HT1621_NOTED_COUNT; HT1621_NOTED_ABOVE with its place; HT1621_OUTPUT_SHORT.
   Stack: at most 256 bytes. */
uint32_t ht1621_decode(const uint8_t *noted, size_t noted_count, uint8_t *out, size_t out_bytes);

#ifdef __cplusplus
}
#endif

#endif
