/* The replay machine for a TMS 9980A with a TMS 9901, as a static library.

   Build it with `examples/library`; link target/staticlib/libtms_replay.a. It is compiled for
   x86-64-v2, and does not check that the processor has all of that.

   Memory, image, records and text are lent: a pointer and the number of elements. A refusal
   changes nothing that is lent, and a slice that is `const` is never changed. `state` after power
   up and after reading an image, `counts`, `block`, `answer` and `runs` are places for the answer:
   whatever is in them is replaced, on a refusal too. `state` of a run goes in and comes out: a
   refusal leaves it as it was given, bit for bit.

   What a caller owes: no pointer is null, not even that of an empty slice; each is aligned for its
   type; what is changed overlaps nothing else of the same call; `state` has 13 elements, `counts`
   has 4, `answer` has 2 for `tms_list` and 4 for `tms_compare_images`, `runs` has 512. The two images
   of a comparison may be the same bytes. Nothing is kept after a call, and nothing is allocated.

   The contracts of the functions, proved for all arguments, stand in
   crates/tms_replay_c/src/lib.rt, the definitions that they cite in
   crates/tms_replay/specs/Exported.antt, and what state an array is in
   crates/state_array/specs/Arrays.antt. For Fortran: tms_replay.f90 beside this file. */

#ifndef TMS_REPLAY_H
#define TMS_REPLAY_H

#include <stddef.h>
#include <stdint.h>

#ifdef __cplusplus
extern "C" {
#endif

/* Sizes: the memory's and an image's bytes, the bytes that a line may need, a state's numbers, a
   run's counts, the numbers about a line, those about two images, the runs of differing bytes that
   are listed and the places that these take. */
#define TMS_MEMORY_SIZE 16384
#define TMS_IMAGE_SIZE 17408
#define TMS_LINE_SIZE 48
#define TMS_STATE_WORDS 13
#define TMS_COUNTS 4
#define TMS_LINE_ANSWER 2
#define TMS_COMPARE_ANSWER 4
#define TMS_LISTED_RUNS 256
#define TMS_LISTED_PLACES 512

/* The numbers of a state, in elements of 32 bits: all have 16 bits but the last, which has 32. */
enum {
  TMS_WP,          /* workspace pointer */
  TMS_PC,          /* program counter */
  TMS_ST,          /* status */
  TMS_FLAGS,       /* 1: idle, 2: the next boundary takes no sample; never both */
  TMS_MASK,        /* 1: control bit, 2^n: mask n */
  TMS_DIRECTION,   /* 2^n: port n is an output */
  TMS_LATCH,       /* 2^n: the level of output n */
  TMS_LOAD,        /* the clock's load */
  TMS_DECREMENTER, /* the clock's value */
  TMS_READING,     /* the clock's read register */
  TMS_PHASE,       /* cycles since the last tick or the last write of a load bit, 0 to 63 */
  TMS_PENDING,     /* 1: the clock's request is pending */
  TMS_ROM          /* where the read-only part begins, an even number of at most 16384: a store
                      whose address modulo 16384 is not below it is dropped */
};

/* The first read-only address of a machine without a read-only part. A state of zeros is another
   one: all of its memory is read-only. */
#define TMS_NO_ROM 16384

/* A run's counts, and what its last step was. */
enum {
  TMS_STEPS,      /* steps done */
  TMS_UNASSIGNED, /* how many of them met an unassigned word */
  TMS_LAST,       /* the kind of the last of them, below */
  TMS_LAST_NUMBER /* the number that goes with the kind: a level, or a PC; else 0 */
};

/* The kinds of a last step. Reset, LOAD and levels are what the pins cause; IDLE, BLWP, XOP, RTWP
   and LREX are instructions, and the steps of a machine that is idle are idling. */
enum {
  TMS_WAS_NOTHING = 0,     /* no step was done */
  TMS_WAS_RESET = 1,       /* a reset entry */
  TMS_WAS_LOAD = 2,        /* a LOAD entry */
  TMS_WAS_LEVEL = 3,       /* an interrupt; its number is its level, 1 to 4 */
  TMS_WAS_INSTRUCTION = 4, /* an instruction */
  TMS_WAS_IDLE = 5,        /* idling */
  TMS_WAS_UNASSIGNED = 6   /* an unassigned word, also one that X led to, and the ninth X of a step;
                              its number is the PC before the step */
};

/* The numbers about a line. */
enum {
  TMS_LENGTH, /* the line's bytes */
  TMS_WORDS   /* the words that its instruction takes, 1 to 3 */
};

/* The numbers about two images. */
enum {
  TMS_REFUSED_IMAGE,    /* the image that a refusal names, 1 or 2; else 0 */
  TMS_REFUSED_BLOCK,    /* its block that refusals 6 and 7 name; else 0 */
  TMS_DIFFERING_FIELDS, /* the fields of block 0 that differ, weight 2^k for field k, below */
  TMS_RUNS              /* how many runs of differing bytes the memories have, 0 to 8192 */
};

/* The fields of an image's block 0, numbered by their words. An image of edition 1 counts as having
   TMS_NO_ROM in its last. The format word of two accepted images never differs. */
enum {
  TMS_FIELD_FORMAT,
  TMS_FIELD_EDITION,
  TMS_FIELD_STATE /* the first of a state's numbers: number n of the state is field n + 2 */
};

/* The answers, checked in the order that each function names. */
enum {
  TMS_ACCEPTED = 0,
  TMS_MEMORY = 1,       /* the memory has not 16384 bytes */
  TMS_STATE = 2,        /* the state is not well formed, or one of its numbers does not fit its field */
  TMS_RECORDS = 3,      /* more steps asked than there are records */
  TMS_IMAGE = 5,        /* the image or its buffer has not 17408 bytes */
  TMS_BLOCK_CHECK = 6,  /* a block's check is wrong */
  TMS_BLOCK_NUMBER = 7, /* a block's number is wrong */
  TMS_FORMAT = 8,       /* the format word is wrong, or the edition is neither 1 nor 2 */
  TMS_FIELDS = 9,       /* the fields are not well formed, or filler is not 0 */
  TMS_TEXT = 11         /* the buffer for a line has fewer than 48 bytes */
};

/* Power up: the blank PSI and the reset entry from blank registers, with nothing read-only. Leaves
   the state in `state`: after a refusal the blank state. Answers 1, 0. */
uint16_t tms_power_up(uint8_t *memory, size_t memory_len, uint32_t state[TMS_STATE_WORDS]);

/* Runs at most `steps` steps, one pin record each, and stops before a step whose PC is `stop` (an
   odd one never is). A record: bits 0 to 14 are the pins INT1 to INT15, 15 to 21 P0 to P6 (1 is
   high), 22 to 31 the clock cycles before the step. Leaves the state after in `state`, and in
   `counts` the steps done, the unassigned words met and what the last step was; a refusal leaves
   `state` as it was and four zeros. Answers 1, 2, 3, 0. */
uint16_t tms_run(uint8_t *memory, size_t memory_len, uint32_t state[TMS_STATE_WORDS],
                 const uint32_t *records, size_t records_len, size_t steps, uint16_t stop,
                 uint64_t counts[TMS_COUNTS]);

/* Reads an image of edition 1 or 2 into `memory` and `state`; edition 1 has no read-only part.
   Refusals 6 and 7 leave the number of the lowest bad block in `block`, all other answers 0. A
   refusal leaves the blank state in `state`, and the memory as it was. Answers 1, 5, then 6 and 7
   block by block, 8, 9, 0. */
uint16_t tms_read_image(const uint8_t *image, size_t image_len, uint8_t *memory, size_t memory_len,
                        uint32_t state[TMS_STATE_WORDS], uint32_t *block);

/* Writes an image of `state` and `memory`, of edition 2, into the buffer `image`, which a refusal
   leaves as it was. Answers 1, 5, 2, 0. */
uint16_t tms_write_image(const uint32_t state[TMS_STATE_WORDS], const uint8_t *memory,
                         size_t memory_len, uint8_t *image, size_t image_len);

/* Writes one line about the instruction at `address`, whose lowest bit is dropped, to the start of
   the buffer `text`, which has at least 48 bytes whatever the line: address, words, mnemonic and
   operands, with neither a line feed nor a zero at the end. The bytes after the line stay. Leaves
   the line's length and the number of words in `answer`; a refusal leaves `text` as it was and two
   zeros. Answers 1, 11, 0. */
uint16_t tms_list(const uint8_t *memory, size_t memory_len, uint16_t address, uint8_t *text,
                  size_t text_len, uint32_t answer[TMS_LINE_ANSWER]);

/* Compares two images, of one edition or of two. Leaves in `answer` which fields of block 0 differ
   and how many runs of differing bytes the memories have, and in `runs` the first 256 of these, in
   rising order: run n, counted from 0, has the address of its first byte in `runs[2 * n]` and its
   length in `runs[2 * n + 1]`; the places that are left are 0. A run is as long as it can be: no two
   touch. A refusal leaves the image, and for 6 and 7 the block, in `answer`, and zeros in all other
   places, those of `runs` too. Answers 5, then 6 and 7 block by block, 8, 9 for the first image, the
   same for the second, 0. */
uint16_t tms_compare_images(const uint8_t *first, size_t first_len, const uint8_t *second,
                            size_t second_len, uint32_t answer[TMS_COMPARE_ANSWER],
                            uint32_t runs[TMS_LISTED_PLACES]);

#ifdef __cplusplus
}
#endif

#endif
