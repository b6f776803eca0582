/* The programs aigtool, aigedit and aigcheck again, over the calls of aig.h: calls PROGRAM CALL WORD ..
 *
 * Prints what the program prints of the same words, but for what a check prints that holds, says the same on standard error, and ends with
 * the same status. Each call that gives bytes is made three times: with no room, with as much room as it then says it takes, and with one item less.
 */
#include "made.h"
#include <stdio.h>
#include <stdlib.h>
#include <string.h>

static const char *program;

static _Noreturn void end(int status, const char *why) {
  fprintf(stderr, "%s: %s\n", program, why);
  exit(status);
}

static _Noreturn void stop(const char *why) {
  end(1, why);
}

static _Noreturn void wrong(const char *what) {
  fprintf(stderr, "calls: %s\n", what);
  exit(3);
}

static void *room_for(size_t size) {
  void *at = malloc(size ? size : 1);
  if (!at) stop("out of memory");
  return at;
}

static struct bytes read_file(const char *path) {
  FILE *file = fopen(path, "rb");
  if (!file) stop("cannot open");
  struct bytes all = {room_for(1 << 16), 0};
  size_t room = 1 << 16, count;
  while ((count = fread(all.at + all.len, 1, room - all.len, file)) > 0) {
    all.len += count;
    if (all.len == room && !(all.at = realloc(all.at, room *= 2))) stop("out of memory");
  }
  if (ferror(file)) stop("read failed");
  fclose(file);
  all.at[all.len] = 0;
  return all;
}

/* Says on standard error what the status means, and ends. */
static _Noreturn void refuse(uint32_t status) {
  char text[100];
  size_t needed = 0;
  if (aig_message(status, (uint8_t *)text, sizeof text - 1, &needed) != AIG_DONE) wrong("a text doesn't fit");
  text[needed] = 0;
  end(1, text);
}

/* Whether each byte is the one that was put there. */
static bool is_kept(const uint8_t *out, size_t len) {
  for (size_t i = 0; i < len; i++)
    if (out[i] != 0xa5) return false;
  return true;
}

/* Makes the call with this much room, and checks what it leaves. */
static uint32_t try(answers *makes, const struct words *w, size_t room, size_t *needed, uint8_t **answer) {
  const size_t more = 8;
  uint8_t *out = room_for(room + more);
  memset(out, 0xa5, room + more);
  size_t count = 0xa5a5;
  uint32_t status = makes(w, out, room, &count);
  size_t filled = status == AIG_DONE ? count : 0;
  if (filled > room || !is_kept(out + filled, room + more - filled)) wrong("memory was written that isn't the answer's");
  if (status > AIG_SMALL && count != 0xa5a5) wrong("needed was written with no answer");
  if (status == AIG_SMALL && count <= room) wrong("an answer that fits was not given");
  *needed = count;
  *answer = out;
  return status;
}

/* Prints an answer, or ends. */
static void print(answers *makes, const struct words *w) {
  size_t needed = 0, again = 0;
  uint8_t *none, *answer, *less;
  uint32_t status = try(makes, w, 0, &needed, &none);
  if (status > AIG_SMALL) refuse(status);
  if (status == AIG_DONE && needed) wrong("an answer was given where there is no room");
  status = try(makes, w, needed, &again, &answer);
  if (status != AIG_DONE || again != needed) wrong("an answer doesn't fit that was to fit");
  if (needed && (try(makes, w, needed - 1, &again, &less) != AIG_SMALL || again != needed)) wrong("an answer fits too little room");
  fwrite(answer, 1, needed, stdout);
}

/* Ends where a check isn't done. */
static void hold(uint32_t status) {
  if (status != AIG_DONE) refuse(status);
}

/* Prints so many literals of a map, as the comments of aigcheck clauses, and gives what is behind them. */
static const int32_t *print_map(const int32_t *at, char letter, size_t count, uint64_t step) {
  for (size_t i = 0; i < count; i++) printf("c %c%zu at step %llu is %d\n", letter, i, (unsigned long long)step, at[i]);
  return at + count;
}

/* Prints the numbers of a query as DIMACS text, after the comments that its map says. */
static void print_numbers(const struct words *w) {
  size_t needed = 0, variables = 0, clauses_len = 0, count = 0, inputs = 0, latches = 0, bads = 0;
  int32_t none[1] = {7}, *out;
  const uint64_t k = w->numbers[0];
  uint32_t status = aig_query_numbers(w->files[0].at, w->files[0].len, k, w->optimize, none, 0, &needed, &variables, &clauses_len);
  if (status > AIG_SMALL) {
    if (needed || variables || clauses_len || none[0] != 7) wrong("memory was written with no answer");
    refuse(status);
  }
  out = room_for(needed * sizeof *out);
  hold(aig_query_numbers(w->files[0].at, w->files[0].len, k, w->optimize, out, needed, &needed, &variables, &clauses_len));
  if (sscanf((const char *)w->files[0].at, "%*s %*u %zu %zu %*u %*u %zu", &inputs, &latches, &bads) != 3) wrong("a header line");
  const int32_t *at = out + clauses_len;
  for (uint64_t t = 0; t <= k; t++) at = print_map(at, 'i', inputs, t);
  at = print_map(at, 'l', latches, 0);
  if (print_map(at, 'b', bads, k) != out + needed) wrong("a map of another length");
  for (size_t i = 0; i < clauses_len; i++) count += out[i] == 0;
  printf("p cnf %zu %zu\n", variables, count);
  for (size_t i = 0; i < clauses_len; i++) printf(out[i] ? "%d " : "%d\n", out[i]);
}

/* Prints the numbers that a call tells, as the program does. */
static void print_told(const char *name, tells *told_by, const struct words *w) {
  size_t told[3] = {0xa5a5, 0xa5a5, 0xa5a5};
  uint32_t status = told_by(w, told);
  if (status != AIG_DONE && (told[0] != 0xa5a5 || told[1] != 0xa5a5 || told[2] != 0xa5a5)) wrong("numbers were written with no answer");
  hold(status);
  if (!strcmp(name, "check_run"))
    printf("b%zu at step %zu\n", told[0], told[1]);
  else if (!strcmp(name, "check_lasso"))
    printf("j%zu in a loop from step %zu to %zu\n", told[0], told[1], told[2]);
  else
    printf("%zu\n", told[0]);
}

int main(int argc, char **argv) {
  if (argc < 4) return 2;
  program = argv[1];
  const char *command = argv[2];
  struct words w = {.optimize = true};
  enum { MOST = sizeof w.files / sizeof *w.files };
  const char *paths[MOST];
  int count = 0, numbers = 0;
  for (int i = 3; i < argc; i++) {
    char *end;
    uint64_t number = strtoull(argv[i], &end, 10);
    if (!strcmp(argv[i], "raw"))
      w.optimize = false;
    else if (!strcmp(argv[i], "distinct"))
      w.distinct = true;
    else if (!*end && i > 3 && numbers < 2)
      w.numbers[numbers++] = number;
    else if (strcmp(argv[i], "to") && strcmp(argv[i], "by") && count < MOST)
      paths[count++] = argv[i];
  }
  for (int i = 0; i < count; i++) w.files[i] = read_file(paths[i]);
  for (size_t i = 0; i < sizeof ANSWERS / sizeof *ANSWERS; i++)
    if (!strcmp(command, ANSWERS[i].name) && count == ANSWERS[i].files) return print(ANSWERS[i].call, &w), 0;
  for (size_t i = 0; i < sizeof CHECKS / sizeof *CHECKS; i++)
    if (!strcmp(command, CHECKS[i].name) && count == CHECKS[i].files) return hold(CHECKS[i].call(&w)), 0;
  for (size_t i = 0; i < sizeof TELLS / sizeof *TELLS; i++)
    if (!strcmp(command, TELLS[i].name) && count == TELLS[i].files) return print_told(command, TELLS[i].call, &w), 0;
  if (!strcmp(command, "query_numbers")) return print_numbers(&w), 0;
  return 2;
}
