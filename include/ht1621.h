/* The HT1621 pack: the numbers that its calls for C share. C99 and C++. The chip is an HT1621 or a GN1621.

   ht1621_chip.h has the chip and ht1621_host.h the side that drives it: eight calls, in the archive libht1621.a.
   ht1621_simulator.h has the chip's three calls under the plain names that they have in the archive libsimulator.a.
   RULES.md, in docs/ of the pack and in share/doc/ht1621 where it is installed, has the rules, and PROMISES.md what is promised of
   each call. */
#ifndef HT1621_H
#define HT1621_H

#define HT1621_VERSION "5.0.1"
#define HT1621_VERSION_NUMBER 50001 /* 10,000 x 5 + 100 x 0 + 1, to compare with */

/* ---- parts ---- */

/* Which chip it is: ht1621_power_on and ht1621_commands are told it, and a state record has it in a byte of its own. The two differ in
   the codes of one command, CLR TIMER, and in how long they scan a common; a stream that writes or reads does for either. */
enum {
    HT1621_PART_HT = 0, /* HT1621 */
    HT1621_PART_GN = 1  /* GN1621 */
};

/* ---- samples and answers ---- */

/* A sample is the new level of each line, 0 to 15: the sum of those that are high. */
#define HT1621_CS 1
#define HT1621_WR 2
#define HT1621_RD 4
#define HT1621_DATA 8

/* What a sample is answered. Details stand behind the name, the first and the second. */
enum {
    HT1621_NOTHING = 0,
    HT1621_FRAME_OPENED = 1,
    HT1621_FRAME_CLOSED = 2,
    HT1621_FRAME_CUT = 3,        /* closed, and unfinished bits were dropped */
    HT1621_BIT_TAKEN = 4,
    HT1621_NIBBLE_STORED = 5,    /* address, nibble; from HT1621_ADDRESSES on, up to 63, there is no memory, and it is stored nowhere */
    HT1621_COMMAND_OBEYED = 6,   /* the upper eight bits of the code, 0 */
    HT1621_COMMAND_UNDEFINED = 7, /* the same of a code that means nothing */
    HT1621_BIT_OFFERED = 8,      /* the address it came from, bit; from HT1621_ADDRESSES on, up to 63, it is 0 */
    HT1621_STRAY_EDGE = 9,
    HT1621_UNKNOWN_ID = 10,
    HT1621_CLASH = 11
};

/* ---- commands ---- */

/* The code of each command: the upper eight of its nine bits; the ninth means nothing and is sent as 0.

   Sketches for Arduino send the ID with a 0 after it and then a byte, the lower eight of the nine bits, so their bytes are twice these:
   0x52, 0x30, 0x02, 0x06, 0x10, 0x0A there are HT1621_BIAS_3_4, HT1621_RC, HT1621_SYS_EN, HT1621_LCD_ON, HT1621_TONE_OFF,
   HT1621_WDT_DIS here. Halve them: the driver takes 0x52 for TONE 4K, 0x02 for LCD OFF and 0x06 for TIMER EN, and refuses only the
   other three. */
enum {
    HT1621_SYS_DIS = 0x00,   /* system and LCD off; does nothing while EXT is selected */
    HT1621_SYS_EN = 0x01,
    HT1621_LCD_OFF = 0x02,
    HT1621_LCD_ON = 0x03,
    HT1621_TIMER_DIS = 0x04,
    HT1621_WDT_DIS = 0x05,
    HT1621_TIMER_EN = 0x06,  /* time base on, and to IRQ */
    HT1621_WDT_EN = 0x07,    /* time base on, and its time-out flag to IRQ */
    HT1621_TONE_OFF = 0x08,
    HT1621_TONE_ON = 0x09,
    HT1621_CLR_TIMER = 0x0C, /* of an HT1621; for a GN1621 take the next one */
    HT1621_GN_CLR_TIMER = 0x0A, /* of a GN1621 */
    HT1621_CLR_WDT = 0x0E,   /* clears the time base too */
    HT1621_XTAL = 0x14,      /* the clock: a crystal of 32.768 kHz */
    HT1621_RC = 0x18,        /* the chip's own 256 kHz */
    HT1621_EXT = 0x1C,       /* 256 kHz from outside */
    /* each of these six begins the scan anew, also where the commons stay as they were */
    HT1621_BIAS_2_2 = 0x20,  /* bias 1/2 with 2, 3, 4 commons */
    HT1621_BIAS_2_3 = 0x24,
    HT1621_BIAS_2_4 = 0x28,
    HT1621_BIAS_3_2 = 0x21,  /* bias 1/3 with 2, 3, 4 commons */
    HT1621_BIAS_3_3 = 0x25,
    HT1621_BIAS_3_4 = 0x29,
    HT1621_TONE_4K = 0x40,   /* selects the tone, and turns nothing on */
    HT1621_TONE_2K = 0x60,
    HT1621_IRQ_DIS = 0x80,   /* output off, and the time-out flag cleared */
    HT1621_IRQ_EN = 0x88,
    HT1621_F1 = 0xA0,        /* the rate of the time base: 1 Hz with a crystal, and so on to 128 Hz */
    HT1621_F2 = 0xA1,
    HT1621_F4 = 0xA2,
    HT1621_F8 = 0xA3,
    HT1621_F16 = 0xA4,
    HT1621_F32 = 0xA5,
    HT1621_F64 = 0xA6,
    HT1621_F128 = 0xA7,
    HT1621_TEST = 0xE0,      /* not for users of the chip; the model keeps a mark */
    HT1621_NORMAL = 0xE3
};

/* ---- refusals ---- */

/* Why a call was refused. A refused call changes no byte. */
enum {
    HT1621_SAMPLE_ABOVE = 20,      /* a sample above 15 */
    HT1621_NOTHING_ASKED = 21,     /* no nibble or no command */
    HT1621_ADDRESS_ABOVE = 22,     /* a first address above 31: those of the memory are 0 to 31 */
    HT1621_NIBBLE_ABOVE = 23,      /* a nibble above 15, with its place */
    HT1621_UNDEFINED_COMMAND = 24, /* in the part that was told, with its place */
    HT1621_OUTPUT_SHORT = 25,      /* an output shorter than needed */
    HT1621_NOTED_COUNT = 26,       /* a number of noted bytes that is none of 4, 8 .. 128 */
    HT1621_NOTED_ABOVE = 27,       /* a noted byte above 1, with its place */
    HT1621_MALFORMED = 28,         /* bytes that are no state record */
    HT1621_MEMORY_COUNT = 29,      /* a power-on memory that is not 32 values */
    HT1621_RUNS_PAST_END = 30,     /* a first address from 0 to 31, but first + count above 32: the run would pass address 31, and it
                                      does not go on at 0 */
    HT1621_TOO_MANY_COMMANDS = 31, /* more than 32 commands for one stream: give the others in a second call */
    HT1621_UNKNOWN_PART = 43       /* a part that is neither HT1621_PART_HT nor HT1621_PART_GN */
};

/* Whether what a call returned is a refusal: a test for each call, since a step's answers, the pins and a number of bytes are told
   from a refusal in different ways. */
#define HT1621_STEP_REFUSED(result) (((result) & 255u) >= 20u)
#define HT1621_ADVANCE_REFUSED(result) ((result) != 0u)
#define HT1621_PINS_REFUSED(result) ((result) >= 24u)
#define HT1621_POWER_ON_REFUSED(result) ((result) >> 31)
#define HT1621_WRITE_REFUSED(result) ((result) >> 31)
#define HT1621_READ_REFUSED(result) ((result) >> 31)
#define HT1621_COMMANDS_REFUSED(result) ((result) >> 31)
#define HT1621_DECODE_REFUSED(result) ((result) >> 31)

/* Of a refusal, whichever the call: its number, and the lowest index at fault, which is 0 where the refusal has no place. */
#define HT1621_REFUSAL(result) ((result) & 255u)
#define HT1621_PLACE(result) ((result) >> 8 & 0x7fffffu)

/* ---- the state record ---- */

/* A chip is these 64 bytes. A switch is 0 or 1. Bytes that are not as said here are no record, and every call refuses them. */
#define HT1621_RECORD_BYTES 64
#define HT1621_ADDRESSES 32       /* of the memory */
#define HT1621_FRAME_ADDRESSES 64 /* that a frame counts through: those of the memory, and as many behind them that have none */

enum {
    HT1621_AT_MEMORY = 0,      /* 32 bytes, a nibble each */
    HT1621_AT_LINES = 32,      /* the sample last taken */
    HT1621_AT_PHASE = 33,      /* 0 exactly while CS is high, no frame; in one 1 ID, 2 and 3 the address of a read and of a write, 4 reading,
                                  5 writing, 6 commands, 7 dead */
    HT1621_AT_COUNT = 34,      /* how many bits are unfinished: at most 2, 5, 5, 3, 8 in phases 1, 2, 3, 5, 6, else 0 */
    HT1621_AT_VALUE = 35,      /* their value, first bit highest, below 2 to the count: two bytes, the low one first */
    HT1621_AT_ADDRESS = 37,    /* 0 to 63, and 0 outside phases 4 and 5, as the two after it */
    HT1621_AT_POSITION = 38,   /* of the bit to be read next, 0 to 3 */
    HT1621_AT_DATA = 39,       /* 0 released, 1 low, 2 high */
    HT1621_AT_SYSTEM = 40,     /* switch */
    HT1621_AT_SOURCE = 41,     /* of the clock: 0 XTAL, 1 RC, 2 EXT */
    HT1621_AT_LCD = 42,        /* switch */
    HT1621_AT_BIAS = 43,       /* 2 or 3: 1/2 or 1/3 */
    HT1621_AT_COMMONS = 44,    /* 2 to 4 */
    HT1621_AT_TONE = 45,       /* switch */
    HT1621_AT_PITCH = 46,      /* 4 or 2: 4 kHz or 2 kHz */
    HT1621_AT_IRQ = 47,        /* switch of the output */
    HT1621_AT_RATE = 48,       /* r, 0 to 7: F1 to F128 */
    HT1621_AT_BASE = 49,       /* switch of the time base */
    HT1621_AT_IRQ_SOURCE = 50, /* 0 none, 1 time base, 2 flag */
    HT1621_AT_FLAG = 51,       /* whether the time-out flag is set */
    HT1621_AT_P = 52,          /* counters: p modulo 8 */
    HT1621_AT_Q = 53,          /* modulo 16 */
    HT1621_AT_D = 54,          /* modulo 128 */
    HT1621_AT_B = 55,          /* modulo 256 */
    HT1621_AT_W = 56,          /* modulo 4 */
    HT1621_AT_TEST = 57,       /* switch */
    HT1621_AT_PART = 58,       /* HT1621_PART_HT or HT1621_PART_GN. With zeros from here on a record is of an HT1621 with its scan at the
                                  beginning. Who changes this byte or the commons sets the two after it to 0 */
    HT1621_AT_SCAN = 59,       /* the scan's counter: modulo 128 in an HT1621, modulo 96 in a GN1621 */
    HT1621_AT_COMMON = 60,     /* the common now scanned, below the byte HT1621_AT_COMMONS */
    HT1621_AT_ZEROS = 61       /* zeros from here to HT1621_RECORD_BYTES */
};

#endif
