/* The HT1621 pack: the chip's three calls under plain names. C99 and C++; link libsimulator.a.

   They are those of ht1621_chip.h, which says what each does and returns, without the prefix; libsimulator.a has these names and no
   others. A program that has a `step` of its own would call that one and the linker would say nothing: in such a program, and in every new
   one, take ht1621_chip.h and libht1621.a. */
#ifndef HT1621_SIMULATOR_H
#define HT1621_SIMULATOR_H

#include "ht1621_chip.h"

#ifdef __cplusplus
extern "C" {
#endif

uint32_t step(uint8_t *record, size_t record_bytes, uint8_t sample);
uint32_t advance(uint8_t *record, size_t record_bytes, uint16_t ticks);
uint32_t pins(const uint8_t *record, size_t record_bytes, uint8_t *cells, size_t cells_bytes);

#ifdef __cplusplus
}
#endif

#endif
