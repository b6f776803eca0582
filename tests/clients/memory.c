/* Refuses each request for memory of each call in turn: memory WHOLE WAITING CONFLICT HINTS DELAYED SOLUTION COUNTER WITNESS APART SOLVED
 * AND FED LASSO
 *
 * Built with -Wl,--wrap=malloc,--wrap=realloc,--wrap=free. Each call has to answer AIG_MEMORY then, to leave all that it is given as it
 * was, and to free what it took. Prints each call and how many requests it has.
 */
#include "made.h"
#include <stdio.h>
#include <stdlib.h>
#include <string.h>

void *__real_malloc(size_t);
void *__real_realloc(void *, size_t);
void __real_free(void *);

static long requests, refused, held;
static bool counts;

static bool refuses(void) {
  return counts && ++requests == refused;
}
void *__wrap_malloc(size_t size) {
  void *at = refuses() ? NULL : __real_malloc(size);
  held += counts && at;
  return at;
}
void *__wrap_realloc(void *old, size_t size) {
  void *at = refuses() ? NULL : __real_realloc(old, size);
  held += counts && at && !old;
  return at;
}
void __wrap_free(void *at) {
  held -= counts && at;
  __real_free(at);
}

enum { WHOLE, WAITING, CONFLICT, HINTS, DELAYED, SOLUTION, COUNTER, WITNESS, APART, SOLVED, AND, FED, LASSO, FILES };

static uint8_t read[FILES][1 << 12];
static size_t lens[FILES];
static uint8_t out[1 << 16], before[1 << 16];
static size_t numbers[3];

/* On which files and numbers a call is made that asks for more memory there than on the first of these. */
static const struct {
  const char *name;
  int files[7];
  uint64_t numbers[2];
} ASKED[] = {
  {"", {WHOLE, WHOLE, CONFLICT, CONFLICT}, {2}},
  {"outputs_as_bads", {AND}, {0}},
  {"property_alone", {WHOLE}, {0}},
  {"cone", {WHOLE}, {0}},
  {"live", {WHOLE}, {0}},
  {"rounds", {WHOLE}, {0, 2}},
  {"bounded", {COUNTER}, {4}},
  {"check_refuted", {WHOLE, CONFLICT}, {0}},
  {"check_refuted_to", {APART, CONFLICT}, {0}},
  {"check_inductive", {WAITING, HINTS}, {0}},
  {"check_safe", {WAITING, CONFLICT, HINTS}, {0}},
  {"check_no_lasso", {WHOLE, CONFLICT}, {0, 0}},
  {"check_no_lasso_to", {WHOLE, CONFLICT}, {0, 1}},
  {"check_no_fair_run", {WHOLE, CONFLICT, CONFLICT}, {0, 0}},
  {"check_equal", {WAITING, WAITING, CONFLICT}, {0}},
  {"check_always_equal", {WAITING, WAITING, CONFLICT, CONFLICT}, {0}},
  {"check_equal_by", {WAITING, WAITING, COUNTER, CONFLICT, CONFLICT}, {0}},
  {"check_simulated", {WAITING, WAITING, CONFLICT, CONFLICT, CONFLICT, CONFLICT, CONFLICT}, {0}},
  {"witness", {DELAYED, SOLUTION}, {1}},
  {"witness_to", {DELAYED, SOLVED}, {1}},
  {"check_run", {COUNTER, WITNESS}, {0}},
  {"check_lasso", {FED, LASSO}, {0}},
};

static struct words words_of(const char *name) {
  size_t at = sizeof ASKED / sizeof *ASKED;
  while (--at && strcmp(name, ASKED[at].name)) continue;
  struct words w = {.optimize = true, .distinct = true};
  memcpy(w.numbers, ASKED[at].numbers, sizeof w.numbers);
  for (int i = 0; i < 7; i++) w.files[i] = (struct bytes){read[ASKED[at].files[i]], lens[ASKED[at].files[i]]};
  return w;
}

/* The calls that have other results. */
static uint32_t query_numbers(void) {
  int32_t *at = (int32_t *)(void *)out;
  return aig_query_numbers(read[WHOLE], lens[WHOLE], 2, true, at, sizeof out / 4, &numbers[0], &numbers[1], &numbers[2]);
}
static uint32_t message(void) { return aig_message(AIG_OTHER + AIG_HEADER, out, sizeof out, &numbers[0]); }

static const struct {
  const char *name;
  uint32_t (*call)(void);
} OTHERS[] = {{"query_numbers", query_numbers}, {"message", message}};

/* Where each table ends among all calls. */
enum {
  GIVEN = sizeof ANSWERS / sizeof *ANSWERS,
  HELD = GIVEN + sizeof CHECKS / sizeof *CHECKS,
  TOLD = HELD + sizeof TELLS / sizeof *TELLS,
  ALL = TOLD + sizeof OTHERS / sizeof *OTHERS
};

/* The name of a call, by its number among all. */
static const char *name_of(size_t i) {
  if (i < HELD) return i < GIVEN ? ANSWERS[i].name : CHECKS[i - GIVEN].name;
  return i < TOLD ? TELLS[i - HELD].name : OTHERS[i - TOLD].name;
}

/* Makes it. */
static uint32_t make(size_t i) {
  struct words w = words_of(name_of(i));
  if (i < GIVEN) return ANSWERS[i].call(&w, out, sizeof out, &numbers[0]);
  if (i < HELD) return CHECKS[i - GIVEN].call(&w);
  return i < TOLD ? TELLS[i - HELD].call(&w, numbers) : OTHERS[i - TOLD].call();
}

static void read_into(int file, const char *path) {
  FILE *stream = fopen(path, "rb");
  if (!stream) exit(2);
  lens[file] = fread(read[file], 1, sizeof read[file], stream);
  fclose(stream);
}

/* Makes a call with a request refused, or none where that is 0, and says how it ended. */
static uint32_t made(size_t call, long which) {
  memset(out, 7, sizeof out);
  memset(numbers, 7, sizeof numbers);
  requests = held = 0;
  refused = which;
  counts = true;
  uint32_t status = make(call);
  counts = false;
  return status;
}

static bool is_kept(void) {
  const size_t kept = 0x0707070707070707;
  return !memcmp(out, before, sizeof out) && numbers[0] == kept && numbers[1] == kept && numbers[2] == kept;
}

int main(int argc, char **argv) {
  if (argc != 1 + FILES) return 2;
  for (int i = 0; i < FILES; i++) read_into(i, argv[1 + i]);
  memset(before, 7, sizeof before);
  int wrong = 0;
  for (size_t i = 0; i < ALL; i++) {
    const uint32_t whole = made(i, 0);
    const long all = requests;
    wrong += held != 0;
    for (long which = 1; which <= all; which++) {
      uint32_t status = made(i, which);
      if (status == AIG_MEMORY && !held && is_kept()) continue;
      printf("%s: request %ld of %ld: status %u, %ld held\n", name_of(i), which, all, status, held);
      wrong++;
    }
    printf("%s: %ld requests, status %u\n", name_of(i), all, whole);
  }
  return wrong != 0;
}
