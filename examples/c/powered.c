/* Powers up on a memory with vectors and a small program, lists it, runs it, carries the machine
   through an image, runs on, compares images, makes a part read-only, is interrupted, and is
   refused in several ways. */

#include <inttypes.h>
#include <stdio.h>
#include <string.h>

#include "tms_replay.h"

static uint8_t memory[TMS_MEMORY_SIZE];
static uint8_t image[TMS_IMAGE_SIZE];
static uint8_t later[TMS_IMAGE_SIZE];
static uint32_t state[TMS_STATE_WORDS];
static uint64_t counts[TMS_COUNTS];
static uint32_t records[8];
static uint32_t block;
static uint8_t text[TMS_LINE_SIZE];
static uint32_t listed[TMS_LINE_ANSWER];
static uint32_t compared[TMS_COMPARE_ANSWER];
static uint32_t runs[TMS_LISTED_PLACES];

static void put(uint16_t at, uint16_t word) {
  memory[at] = word >> 8;
  memory[at + 1] = word & 0xFF;
}

/* The last step: a level's number is decimal, a PC hexadecimal. */
static void last(void) {
  switch (counts[TMS_LAST]) {
  case TMS_WAS_NOTHING: puts("none"); break;
  case TMS_WAS_RESET: puts("reset"); break;
  case TMS_WAS_LOAD: puts("load"); break;
  case TMS_WAS_LEVEL: printf("level%" PRIu64 "\n", counts[TMS_LAST_NUMBER]); break;
  case TMS_WAS_INSTRUCTION: puts("run"); break;
  case TMS_WAS_IDLE: puts("idle"); break;
  case TMS_WAS_UNASSIGNED: printf("word at %04" PRIX64 "\n", counts[TMS_LAST_NUMBER]); break;
  }
}

static void line(uint16_t answer) {
  printf("answer %u steps %" PRIu64 " unassigned %" PRIu64 " pc %04" PRIX32 " wp %04" PRIX32
         " st %04" PRIX32 " ",
         answer, counts[TMS_STEPS], counts[TMS_UNASSIGNED], state[TMS_PC], state[TMS_WP],
         state[TMS_ST]);
  last();
}

static uint16_t run(size_t steps) {
  return tms_run(memory, sizeof memory, state, records, 8, steps, 1, counts);
}

/* The image and the later one: fields by their numbers, runs by their addresses. */
static void compare(size_t later_len) {
  uint16_t answer = tms_compare_images(image, sizeof image, later, later_len, compared, runs);
  printf("compare %u image %" PRIu32 " block %" PRIu32 " fields", answer, compared[TMS_REFUSED_IMAGE],
         compared[TMS_REFUSED_BLOCK]);
  for (int k = 0; k < TMS_FIELD_STATE + TMS_STATE_WORDS; k++)
    if (compared[TMS_DIFFERING_FIELDS] >> k & 1)
      printf(" %d", k);
  printf(" runs %" PRIu32, compared[TMS_RUNS]);
  for (uint32_t n = 0; n < compared[TMS_RUNS] && n < TMS_LISTED_RUNS; n++)
    printf(" %04" PRIX32 "-%04" PRIX32, runs[2 * n], runs[2 * n] + runs[2 * n + 1] - 1);
  puts("");
}

int main(void) {
  /* The vectors of reset and of level 1, then: LI R1,7FFFh; LI R2,1; A R1,R2; an unassigned
     word. */
  put(0x0000, 0x0300);
  put(0x0002, 0x0100);
  put(0x0004, 0x0340);
  put(0x0006, 0x0200);
  put(0x0100, 0x0201);
  put(0x0102, 0x7FFF);
  put(0x0104, 0x0202);
  put(0x0106, 0x0001);
  put(0x0108, 0xA081);
  put(0x010A, 0x0000);
  for (size_t i = 0; i < 8; i++)
    records[i] = 0x003FFFFF; /* all pins high, no cycles */

  /* Each line begins where the one before it ended. */
  for (uint16_t at = 0x0100; at < 0x010C; at += 2 * listed[TMS_WORDS]) {
    if (tms_list(memory, sizeof memory, at, text, sizeof text, listed) != TMS_ACCEPTED)
      return 1; /* or a refusal's zeros would keep it here */
    printf("%.*s\n", (int)listed[TMS_LENGTH], (const char *)text);
  }

  line(tms_power_up(memory, sizeof memory, state));
  line(run(2));

  /* Through an image, into a memory and a state that were wiped. */
  uint16_t wrote = tms_write_image(state, memory, sizeof memory, image, sizeof image);
  memset(memory, 0, sizeof memory);
  memset(state, 0, sizeof state);
  uint16_t read = tms_read_image(image, sizeof image, memory, sizeof memory, state, &block);
  printf("wrote %u read %u block %" PRIu32 "\n", wrote, read, block);
  line(run(2));

  /* What these steps changed: PC, ST, and both bytes of R2. An image and itself: nothing. */
  wrote = tms_write_image(state, memory, sizeof memory, later, sizeof later);
  compare(sizeof later);
  memcpy(later, image, sizeof later);
  compare(sizeof later);

  /* From R2 on everything is read-only: A R1,R2 sets the status, and R2 keeps its 8000h. */
  state[TMS_ROM] = 0x0304;
  state[TMS_PC] = 0x0108;
  line(run(1));
  printf("r2 %02X%02X rom %" PRIu32 "\n", memory[0x0304], memory[0x0305], state[TMS_ROM]);
  state[TMS_ROM] = TMS_NO_ROM;

  /* Request 3 is enabled, its pin is low and the status's mask admits level 1: an entry. A run of
     no steps has no last one. */
  state[TMS_MASK] = 1 << 3;
  state[TMS_ST] |= 1;
  records[0] &= ~(1u << 2);
  line(run(1));
  records[0] |= 1u << 2;
  line(run(0));

  /* Refusals: too few records; an odd read-only address, and one beyond the memory; both flags; a
     number that does not fit its word, which stays. */
  line(run(9));
  state[TMS_ROM] = TMS_NO_ROM - 1;
  line(run(1));
  state[TMS_ROM] = 65536;
  line(run(1));
  state[TMS_ROM] = TMS_NO_ROM;
  state[TMS_FLAGS] = 3;
  line(run(1));
  state[TMS_FLAGS] = 0;
  state[TMS_ST] = 65536;
  line(run(1));
  wrote = tms_write_image(state, memory, sizeof memory, image, sizeof image);
  printf("wrote %u st %" PRIu32 "\n", wrote, state[TMS_ST]);

  /* The second image with a damaged block, then a byte short; then the first has that block too,
     which comes before anything of the second. */
  later[3 * 512 + 10] ^= 1;
  compare(sizeof later);
  compare(sizeof later - 1);
  image[3 * 512 + 10] ^= 1;
  compare(sizeof later - 1);

  /* A damaged block, and a short image: the blank state comes back, with nothing read-only. */
  read = tms_read_image(image, sizeof image, memory, sizeof memory, state, &block);
  printf("read %u block %" PRIu32 " pc %04" PRIX32 "\n", read, block, state[TMS_PC]);
  read = tms_read_image(image, sizeof image - 1, memory, sizeof memory, state, &block);
  printf("read %u block %" PRIu32 " pc %04" PRIX32 " rom %" PRIu32 "\n", read, block, state[TMS_PC],
         state[TMS_ROM]);

  /* A memory of another size: the blank state, but a run keeps its own. */
  uint16_t answer = tms_power_up(memory, sizeof memory - 2, state);
  printf("power up %u pc %04" PRIX32 "\n", answer, state[TMS_PC]);
  state[TMS_PC] = 0x0100;
  answer = tms_run(memory, 0, state, records, 8, 1, 1, counts);
  printf("run %u pc %04" PRIX32 "\n", answer, state[TMS_PC]);

  /* A buffer of 47 bytes is refused and stays as it was: the last line still stands in it. */
  answer = tms_list(memory, sizeof memory, 0x0100, text, sizeof text - 1, listed);
  printf("list %u length %" PRIu32 " words %" PRIu32 " text %.20s\n", answer, listed[TMS_LENGTH],
         listed[TMS_WORDS], (const char *)text);
  return 0;
}
