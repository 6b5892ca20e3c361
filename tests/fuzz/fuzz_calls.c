/* The eight exported calls under a fuzzer. An input is a program for them: a byte that says what to do and the bytes that it
   takes with it. Each call is made on lent bytes that stand between guards, and once more by the model on a copy: the result
   and every lent byte have to be the same, and the guards as they were. */
#include <sanitizer/asan_interface.h>
#include <stdint.h>
#include <stdio.h>
#include <stdlib.h>
#include <string.h>

#include "ht1621_host.h"
#include "ht1621_simulator.h"

/* The calls, as model_calls.rs numbers them; and what else a program can say: to give the chip samples of the stream that was
   made last, to set a byte of the record, and to lend the record as so many bytes. */
enum { STEP, ADVANCE, PINS, POWER_ON, WRITE, READ, COMMANDS, DECODE, PLAY, SET, LENGTH, KINDS };
static const char *const names[] = {"step", "advance", "pins", "ht1621_power_on", "ht1621_write", "ht1621_read",
                                    "ht1621_commands", "ht1621_decode"};

enum { GUARD = 32, GUARD_BYTE = 0x95, RECORD_MOST = 80, BYTES_MOST = 700, TICKS_MOST = 70000 };

uint32_t model_call(uint32_t call, size_t first, size_t second, const uint8_t *lent, size_t lent_bytes, uint8_t *out,
                    size_t out_bytes);

/* What is left of the input. */
static const uint8_t *input;
static size_t left;

/* What the program works on: a record of any length, the stream that was made last, and what a host noted of it. */
static uint8_t record[RECORD_MOST], stream[BYTES_MOST], noted[BYTES_MOST];
static size_t record_bytes, stream_bytes, played, noted_bytes;
static unsigned ticks_left;

/* Bytes lent to a call: `bytes` is between two guards that no one may touch while the call runs. */
struct lent {
    uint8_t *block, *bytes;
    size_t length;
};

/* A call: its numbers in their order, the bytes it may only read, and those it may write. */
struct call {
    uint32_t kind;
    size_t first, second;
    const uint8_t *in;
    size_t in_bytes;
    uint8_t *out;
    size_t out_bytes;
};

/* Lends a copy of these bytes. */
static struct lent lend(const uint8_t *bytes, size_t length) {
    struct lent lent = {malloc(length + 2 * GUARD), NULL, length};
    if (!lent.block) abort();
    lent.bytes = lent.block + GUARD;
    memset(lent.block, GUARD_BYTE, length + 2 * GUARD);
    memcpy(lent.bytes, bytes, length);
    ASAN_POISON_MEMORY_REGION(lent.block, GUARD);
    ASAN_POISON_MEMORY_REGION(lent.bytes + length, GUARD);
    return lent;
}

/* Whether the guards stand; from here on they may be looked at. */
static int guarded(const struct lent *lent) {
    ASAN_UNPOISON_MEMORY_REGION(lent->block, lent->length + 2 * GUARD);
    for (size_t i = 0; i < GUARD; i++)
        if (lent->block[i] != GUARD_BYTE || lent->bytes[lent->length + i] != GUARD_BYTE) return 0;
    return 1;
}

/* The call itself. */
static uint32_t library_call(const struct call *call, struct lent *in, struct lent *out) {
    switch (call->kind) {
    case STEP: return step(out->bytes, out->length, (uint8_t)call->first);
    case ADVANCE: return advance(out->bytes, out->length, (uint16_t)call->first);
    case PINS: return pins(in->bytes, in->length, out->bytes, out->length);
    case POWER_ON: return ht1621_power_on(call->first, in->bytes, in->length, out->bytes, out->length);
    case WRITE: return ht1621_write(call->first, in->bytes, in->length, out->bytes, out->length);
    case READ: return ht1621_read(call->first, call->second, out->bytes, out->length);
    case COMMANDS: return ht1621_commands(call->first, in->bytes, in->length, out->bytes, out->length);
    default: return ht1621_decode(in->bytes, in->length, out->bytes, out->length);
    }
}

static void print_hex(const char *what, const uint8_t *bytes, size_t length) {
    fprintf(stderr, " %s=%s", what, length ? "" : "-");
    for (size_t i = 0; i < length; i++) fprintf(stderr, "%02x", bytes[i]);
}

/* Prints a call with all that it was given, so that it can be made again, and ends the run. */
static void wrong(const struct call *call, const char *rule, uint32_t due, uint32_t got, const uint8_t *due_out,
                  const struct lent *out) {
    fprintf(stderr, "WRONG %s first=%zu second=%zu", names[call->kind], call->first, call->second);
    print_hex("in", call->in, call->in_bytes);
    print_hex("out", call->out, call->out_bytes);
    fprintf(stderr, ": %s: expected=%u", rule, due);
    print_hex("out", due_out, call->out_bytes);
    fprintf(stderr, " got=%u", got);
    print_hex("out", out->bytes, out->length);
    fprintf(stderr, "\n");
    abort();
}

/* Makes a call, compares it with the model's, and leaves in `call->out` what it wrote. */
static uint32_t compared(const struct call *call) {
    struct lent in = lend(call->in, call->in_bytes), out = lend(call->out, call->out_bytes);
    uint8_t due_out[BYTES_MOST];
    memcpy(due_out, call->out, call->out_bytes);
    uint32_t due = model_call(call->kind, call->first, call->second, call->in, call->in_bytes, due_out, call->out_bytes);
    uint32_t got = library_call(call, &in, &out);
    const char *rule = NULL;
    if (!guarded(&in) || !guarded(&out)) rule = "a guard byte changed";
    else if (memcmp(in.bytes, call->in, in.length)) rule = "a byte only lent for reading changed";
    else if (got != due) rule = "another result";
    else if (memcmp(out.bytes, due_out, out.length)) rule = "other bytes";
    if (rule) wrong(call, rule, due, got, due_out, &out);
    memcpy(call->out, out.bytes, out.length);
    free(in.block);
    free(out.block);
    return got;
}

static uint8_t next_byte(void) {
    if (!left) return 0;
    left--;
    return *input++;
}

/* A count of bytes, up to somewhat more than any call needs. */
static size_t next_length(void) {
    size_t low = next_byte();
    return (low + 256u * next_byte()) % (BYTES_MOST + 1u);
}

/* A number for a call: mostly small, also just above 2^32 and just below the largest. */
static size_t next_number(void) {
    size_t byte = next_byte();
    if (byte >= 240) return SIZE_MAX - (255 - byte);
    if (byte >= 224) return (size_t)UINT32_MAX + (byte - 223);
    return byte;
}

/* As many bytes of the input as its next byte says, or as are left. */
static void next_bytes(struct call *call) {
    size_t length = next_byte();
    if (length > left) length = left;
    call->in = input, call->in_bytes = length;
    input += length, left -= length;
}

/* A call that changes the record. */
static uint32_t call_record(uint32_t kind, size_t number) {
    struct call call = {kind, number, 0, record, 0, record, record_bytes};
    return compared(&call);
}

/* An advance: mostly of few ticks, as many take the model long, and an input has no more than are soon done. */
static void advance_record(void) {
    unsigned ticks = next_byte();
    if (ticks == 255) {
        ticks = next_byte();
        ticks += 256u * next_byte();
    }
    if (ticks > ticks_left) ticks = ticks_left;
    ticks_left -= ticks;
    call_record(ADVANCE, ticks);
}

/* Gives the chip the next samples of the stream, so many or as there are, and notes DATA at each 14 that raises RD. */
static void play(size_t samples) {
    for (; samples && played < stream_bytes; samples--, played++) {
        call_record(STEP, stream[played]);
        if (played && stream[played] == 14 && stream[played - 1] == 10)
            noted[noted_bytes++] = record[HT1621_AT_DATA] == 2;
    }
}

/* A call that writes to a buffer of its own, whose bytes are none that a call writes. */
static void call_buffer(struct call *call) {
    uint8_t buffer[BYTES_MOST];
    memset(buffer, 0xa5, sizeof buffer);
    call->out = buffer, call->out_bytes = next_length();
    uint32_t result = compared(call);
    if (HT1621_WRITE_REFUSED(result)) return; /* the five that write streams, records and nibbles mark a refusal alike */
    if (call->kind == POWER_ON) memcpy(record, buffer, record_bytes = result);
    if (call->kind == WRITE || call->kind == READ || call->kind == COMMANDS) {
        memcpy(stream, buffer, stream_bytes = result);
        played = noted_bytes = 0;
    }
}

/* One thing that the program says. */
static void next_call(void) {
    struct call call = {next_byte() % KINDS, 0, 0, record, 0, NULL, 0};
    switch (call.kind) {
    case STEP: call_record(STEP, next_byte()); return;
    case ADVANCE: advance_record(); return;
    case PINS: call.in_bytes = record_bytes; break;
    case WRITE: call.first = next_number(), next_bytes(&call); break;
    case READ: call.first = next_number(), call.second = next_number(); break;
    case DECODE:
        next_bytes(&call);
        if (!call.in_bytes) call.in = noted, call.in_bytes = noted_bytes;
        break;
    case PLAY: play(next_byte()); return;
    case SET: call.first = next_byte() % RECORD_MOST, record[call.first] = next_byte(); return;
    case LENGTH: record_bytes = next_byte() % (RECORD_MOST + 1); return;
    default: call.first = next_number(), next_bytes(&call); /* POWER_ON and COMMANDS: the part comes first */
    }
    call_buffer(&call);
}

int LLVMFuzzerTestOneInput(const uint8_t *data, size_t bytes);

int LLVMFuzzerTestOneInput(const uint8_t *data, size_t bytes) {
    static const uint8_t zeros[HT1621_ADDRESSES];
    struct call power_on = {POWER_ON, HT1621_PART_HT, 0, zeros, sizeof zeros, record, HT1621_RECORD_BYTES};
    memset(record, 0, sizeof record);
    record_bytes = compared(&power_on);
    stream_bytes = played = noted_bytes = 0;
    input = data, left = bytes, ticks_left = TICKS_MOST;
    while (left) next_call();
    return 0;
}
