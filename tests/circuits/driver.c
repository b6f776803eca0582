/* Makes the calls on circuits in memory that scripts on standard input say, and prints how each ended: driver [memory]
 *
 * made.h, which tests/oracles/test_circuits.py writes from the header, has a function for each call, which takes what it gives from the words of the
 * line. A handle is given by its number, bytes in hexadecimal, a list with commas, or as `-` where it is empty, and memory for an answer
 * by how many items it has room for. The line `script` empties the handles, and says how many pieces of memory aren't free then.
 *
 * What is printed of a call is its status, what it tells, and a sum of all that the handles hold. What is pointed to has to be as it was,
 * but for what is told, and for `needed` after AIG_SMALL: else the line ends with WRITTEN.
 *
 * With `memory` each request for memory of a call is refused in turn, before the call is made with none refused. A refused call has to
 * answer AIG_MEMORY, and to leave all as it was, or to end as if none were refused; a line tells of one that doesn't. The last lines say
 * how many refusals each call has seen.
 *
 * Built with -Wl,--wrap=malloc,--wrap=realloc,--wrap=calloc,--wrap=free.
 */
#include "aig.h"
#include <stdio.h>
#include <stdlib.h>
#include <string.h>

enum { HANDLES = 3, MOST_OUTS = 2, MOST_SLICES = 2, MOST_ITEMS = 1 << 16 };

static void end(const char *why) {
  fprintf(stderr, "driver: %s\n", why);
  exit(2);
}

/* ---- memory */

void *__real_malloc(size_t);
void *__real_realloc(void *, size_t);
void *__real_calloc(size_t, size_t);
void __real_free(void *);

/* While a call is made: how many requests it has made, which is refused, and how many pieces are taken and not yet freed. */
static long requests, refused, taken;
static bool calls;

static bool refuses(void) {
  return calls && ++requests == refused;
}
void *__wrap_malloc(size_t size) {
  void *at = refuses() ? NULL : __real_malloc(size);
  taken += calls && at;
  return at;
}
void *__wrap_realloc(void *old, size_t size) {
  void *at = refuses() ? NULL : __real_realloc(old, size);
  taken += calls && at && !old;
  return at;
}
void *__wrap_calloc(size_t count, size_t size) {
  void *at = refuses() ? NULL : __real_calloc(count, size);
  taken += calls && at;
  return at;
}
void __wrap_free(void *at) {
  taken -= calls && at;
  __real_free(at);
}

/* ---- what the handles hold */

static aig_circuit_t circuits[HANDLES];
static aig_simulation_t simulations[HANDLES];
static aig_unrolling_t unrollings[HANDLES];
static uint32_t sum;

static uint32_t table[256];

static void make_table(void) {
  for (uint32_t i = 0; i < 256; i++) {
    table[i] = i;
    for (int bit = 0; bit < 8; bit++) table[i] = table[i] >> 1 ^ (table[i] & 1 ? 0xedb88320 : 0);
  }
}

static void add(uint32_t word) {
  sum ^= word;
  for (int i = 0; i < 4; i++) sum = sum >> 8 ^ table[sum & 255];
}

/* Whether a circuit answers, which is asked for all it has. */
static bool answers(uint32_t status) {
  if (status != AIG_DONE && status != AIG_EMPTY) end("a circuit can't be read");
  return status == AIG_DONE;
}

static void add_edges(const uint32_t *edges, size_t count) {
  add(count);
  for (size_t i = 0; i < count; i++) add(edges[i]);
}

static void add_sizes(const size_t *items, size_t count) {
  add(count);
  for (size_t i = 0; i < count; i++) add(items[i]);
}

static void add_nodes(aig_circuit_t *circuit) {
  static aig_node_t nodes[MOST_ITEMS];
  static aig_latch_t latches[MOST_ITEMS];
  static size_t inputs[MOST_ITEMS];
  size_t count = 0;
  answers(aig_circuit_nodes(circuit, nodes, MOST_ITEMS, &count));
  add(count);
  for (size_t i = 0; i < count; i++) add(nodes[i].kind), add(nodes[i].fanin0), add(nodes[i].fanin1);
  answers(aig_circuit_inputs(circuit, inputs, MOST_ITEMS, &count));
  add_sizes(inputs, count);
  answers(aig_circuit_latchs(circuit, latches, MOST_ITEMS, &count));
  add(count);
  for (size_t i = 0; i < count; i++) {
    add(latches[i].input), add(latches[i].next), add(latches[i].init), add(latches[i].has_init);
  }
}

static void add_properties(aig_circuit_t *circuit) {
  static uint32_t edges[MOST_ITEMS];
  size_t count = 0, sets = 0;
  for (uint32_t list = AIG_OUTPUTS; list <= AIG_FAIRNESS; list++) {
    answers(aig_circuit_edges(circuit, list, edges, MOST_ITEMS, &count));
    add_edges(edges, count);
  }
  answers(aig_circuit_num_justice(circuit, &sets));
  add(sets);
  for (size_t i = 0; i < sets; i++) {
    answers(aig_circuit_justice(circuit, i, edges, MOST_ITEMS, &count));
    add_edges(edges, count);
  }
}

static void add_names(aig_circuit_t *circuit) {
  static size_t named[MOST_ITEMS];
  static uint8_t name[MOST_ITEMS];
  size_t count = 0, length = 0;
  answers(aig_circuit_symbols(circuit, named, MOST_ITEMS, &count));
  add(count);
  for (size_t i = 0; i < count; i++) {
    answers(aig_circuit_get_symbol(circuit, named[i], name, MOST_ITEMS, &length));
    add(named[i]), add(length);
    for (size_t j = 0; j < length; j++) add(name[j]);
  }
}

/* Adds the state of a simulation, and the values of its nodes. */
static void add_simulation(aig_simulation_t *simulation) {
  static uint8_t items[MOST_ITEMS];
  size_t count = 0;
  bool has_value = false;
  if (!answers(aig_simulation_state(simulation, items, MOST_ITEMS, &count))) return;
  add(count);
  for (size_t i = 0; i < count; i++) add(items[i]);
  for (count = 0; answers(aig_simulation_has_value(simulation, 2 * count, &has_value)) && has_value; count++) {
    answers(aig_simulation_value(simulation, 2 * count, &items[count]));
  }
  add(count);
  for (size_t i = 0; i < count; i++) add(items[i]);
}

/* Adds the clauses of initial values of an unrolled circuit, and what each of its steps has. */
static void add_unrolling(aig_unrolling_t *unrolling) {
  static int32_t numbers[MOST_ITEMS];
  static uint32_t bads[MOST_ITEMS];
  static size_t inputs[MOST_ITEMS];
  size_t steps = 0, count = 0;
  if (!answers(aig_unrolling_steps(unrolling, &steps))) return;
  answers(aig_unrolling_initial_clauses(unrolling, numbers, MOST_ITEMS, &count));
  add_edges((const uint32_t *)numbers, count);
  for (size_t step = 0; step <= steps; step++) {
    answers(aig_unrolling_step_clauses(unrolling, step, numbers, MOST_ITEMS, &count));
    add_edges((const uint32_t *)numbers, count);
    answers(aig_unrolling_bads(unrolling, step, bads, MOST_ITEMS, &count));
    add_edges(bads, count);
    count = 0;
    if (step) answers(aig_unrolling_added_inputs(unrolling, step, inputs, MOST_ITEMS, &count));
    add_sizes(inputs, count);
  }
}

/* The sum of all that is held: a CRC of each handle's number and contents. */
static uint32_t sum_of_all(void) {
  size_t count;
  sum = ~0u;
  for (int i = 0; i < HANDLES; i++) {
    add(i);
    if (answers(aig_circuit_num_nodes(&circuits[i], &count))) {
      add_nodes(&circuits[i]), add_properties(&circuits[i]), add_names(&circuits[i]);
    }
  }
  for (int i = 0; i < HANDLES; i++) add(i), add_simulation(&simulations[i]);
  for (int i = 0; i < HANDLES; i++) add(i), add_unrolling(&unrollings[i]);
  return ~sum;
}

/* ---- what a call is given */

enum kind { BOOL, U8, U32, I32, SIZE, NODE, LATCH };
static const size_t SIZES[] = {
  sizeof(bool), sizeof(uint8_t), sizeof(uint32_t), sizeof(int32_t), sizeof(size_t), sizeof(aig_node_t), sizeof(aig_latch_t)};

/* Items that a call reads. */
struct slice {
  void *at;
  size_t len;
};

/* What a call may write: what it tells, a state that it changes, or the memory for an answer, of which `needed` says how many items it
 * has. What stands there before the call is kept. */
struct out {
  enum kind kind;
  enum role { TOLD, STATE, ANSWER } role;
  void *at, *before;
  size_t len, needed;
};

static const char *word;
static struct slice slices[MOST_SLICES];
static struct out outs[MOST_OUTS];
static int slice_count, out_count;

static size_t next_number(void) {
  char *after;
  size_t number = strtoull(word, &after, 10);
  if (after == word) end("no number");
  word = after;
  return number;
}

static aig_circuit_t *next_circuit(void) { return &circuits[next_number() % HANDLES]; }
static aig_simulation_t *next_simulation(void) { return &simulations[next_number() % HANDLES]; }
static aig_unrolling_t *next_unrolling(void) { return &unrollings[next_number() % HANDLES]; }

static void put(struct slice *slice, enum kind kind, size_t number) {
  void *at = (uint8_t *)slice->at + slice->len++ * SIZES[kind];
  if (kind == U8) *(uint8_t *)at = number;
  if (kind == U32) *(uint32_t *)at = number;
  if (kind == SIZE) *(size_t *)at = number;
}

/* The items of the next word, in memory of just that length. */
static struct slice next_slice(enum kind kind) {
  word += strspn(word, " ");
  size_t length = strcspn(word, " \n"), items = kind == U8 ? length / 2 : 1;
  for (size_t i = 0; kind != U8 && i < length; i++) items += word[i] == ',';
  if (*word == '-') items = 0;
  struct slice slice = {malloc(items * SIZES[kind]), 0};
  for (const char *at = word; slice.len < items; at += kind == U8 ? 2 : strcspn(at, ",") + 1) {
    char byte[] = {at[0], at[1], 0};
    put(&slice, kind, kind == U8 ? strtoull(byte, NULL, 16) : strtoull(at, NULL, 10));
  }
  word += length;
  return slices[slice_count++] = slice;
}

/* What stands where nothing is told yet. */
static const size_t NOTHING = 0xa5a5a5a5a5a5a5a5;

static struct out *new_out(enum kind kind, enum role role, size_t len) {
  const size_t size = len * SIZES[kind];
  struct out *out = &outs[out_count++];
  *out = (struct out){kind, role, malloc(size), malloc(size), len, NOTHING};
  memset(out->at, 0xa5, size);
  memset(out->before, 0xa5, size);
  return out;
}
static struct out *told(enum kind kind) { return new_out(kind, TOLD, 1); }
static struct out *next_out(enum kind kind) { return new_out(kind, ANSWER, next_number()); }

static struct out *next_state(enum kind kind) {
  const struct slice slice = next_slice(kind);
  struct out *out = new_out(kind, STATE, slice.len);
  memcpy(out->at, slice.at, slice.len * SIZES[kind]);
  memcpy(out->before, slice.at, slice.len * SIZES[kind]);
  return out;
}

#include "made.h"

/* ---- what a call gives */

/* How many of its items a call may have written. */
static size_t told_by(const struct out *out, uint32_t status) {
  if (status != AIG_DONE) return 0;
  return out->role == ANSWER && out->needed < out->len ? out->needed : out->len;
}

/* Whether nothing is written but what the status allows. */
static bool is_as_allowed(const struct out *out, uint32_t status) {
  const size_t size = SIZES[out->kind], first = told_by(out, status) * size;
  const uint8_t *at = out->at, *before = out->before;
  bool is_needed = out->needed == NOTHING;
  if (out->role == ANSWER && status == AIG_DONE) is_needed = out->needed <= out->len;
  if (out->role == ANSWER && status == AIG_SMALL) is_needed = out->needed > out->len && !is_needed;
  return is_needed && !memcmp(at + first, before + first, out->len * size - first);
}

static void print_item(FILE *line, const struct out *out, size_t i) {
  const void *at = (const uint8_t *)out->at + i * SIZES[out->kind];
  const aig_node_t *node = at;
  const aig_latch_t *latch = at;
  switch (out->kind) {
    case BOOL: fprintf(line, "%u", *(const uint8_t *)at); break;
    case U8: fprintf(line, "%02x", *(const uint8_t *)at); break;
    case U32: fprintf(line, "%u", *(const uint32_t *)at); break;
    case I32: fprintf(line, "%d", *(const int32_t *)at); break;
    case SIZE: fprintf(line, "%zu", *(const size_t *)at); break;
    case NODE: fprintf(line, "%u:%u:%u", node->kind, node->fanin0, node->fanin1); break;
    case LATCH: fprintf(line, "%zu:%u:%u:%u", latch->input, latch->next, latch->init, *(const uint8_t *)&latch->has_init); break;
  }
}

static void print_out(FILE *line, const struct out *out, uint32_t status) {
  const size_t count = told_by(out, status);
  if (status == AIG_SMALL && out->role == ANSWER) fprintf(line, " %zu", out->needed);
  if (status == AIG_DONE) fputs(count ? " " : " -", line);
  for (size_t i = 0; i < count; i++) {
    if (i && out->kind > U8) fputc(',', line);
    print_item(line, out, i);
  }
}

static bool are_as_allowed(uint32_t status) {
  for (int i = 0; i < out_count; i++) {
    if (!is_as_allowed(&outs[i], status)) return false;
  }
  return true;
}

static void let_go(void) {
  while (slice_count) free(slices[--slice_count].at);
  while (out_count) free(outs[--out_count].at), free(outs[out_count].before);
}

/* ---- scripts */

/* Makes the call of a line, with a request for memory refused, or with none refused where that is 0. */
static uint32_t make(size_t call, const char *words, long which) {
  word = words;
  requests = 0;
  refused = which;
  uint32_t status = CALLS[call].make();
  calls = false;
  return status;
}

/* What is printed of a call that ended so. */
static char *line_of(uint32_t status) {
  char *text = NULL;
  size_t length = 0;
  FILE *line = open_memstream(&text, &length);
  fprintf(line, "%u", status);
  for (int i = 0; i < out_count; i++) print_out(line, &outs[i], status);
  fprintf(line, " #%08x%s", sum_of_all(), are_as_allowed(status) ? "" : " WRITTEN");
  fclose(line);
  let_go();
  return text;
}

/* ---- refusals */

/* How many refusals each call has seen, and copies of what the handles held before a call. */
static long seen[sizeof CALLS / sizeof *CALLS];
static aig_circuit_t copies[HANDLES];
static aig_simulation_t simulation_copies[HANDLES];

static void copy_all(void) {
  refused = 0;
  calls = true;
  for (int i = 0; i < HANDLES; i++) {
    aig_circuit_free(&copies[i]);
    answers(aig_circuit_clone(&circuits[i], &copies[i]));
    aig_simulation_free(&simulation_copies[i]);
    answers(aig_simulation_clone(&simulations[i], &simulation_copies[i]));
  }
  calls = false;
}

/* Puts the copies back, of which there are others then. Unrolled circuits aren't copied: no call but one that adds a step changes one, and
 * that bears no refusal. */
static void restore_all(void) {
  calls = true;
  for (int i = 0; i < HANDLES; i++) {
    aig_circuit_free(&circuits[i]);
    circuits[i] = copies[i];
    copies[i] = (aig_circuit_t)AIG_NONE;
    aig_simulation_free(&simulations[i]);
    simulations[i] = simulation_copies[i];
    simulation_copies[i] = (aig_simulation_t)AIG_NONE;
  }
  calls = false;
  copy_all();
}

/* Makes the call of a line with each request refused in turn, up to that which isn't made, and then returns what is to be printed. */
static char *refuse_each(size_t call, const char *words) {
  char before[16], *line = NULL, *borne = NULL;
  sprintf(before, "%u #%08x", AIG_MEMORY, sum_of_all());
  copy_all();
  for (long which = 1;; which++) {
    line = line_of(make(call, words, which));
    if (requests < which) break;
    seen[call]++;
    if (!strcmp(line, before)) {
      free(line);
      continue;
    }
    restore_all();
    if (borne && strcmp(line, borne)) printf("request %ld: %s\n", which, line);
    free(borne);
    borne = line;
  }
  if (borne && strcmp(line, borne)) printf("request: %s\n", borne);
  free(borne);
  return line;
}

/* Empties the handles, and says how many pieces of memory are left then. */
static void begin_anew(void) {
  calls = true;
  for (int i = 0; i < HANDLES; i++) {
    aig_circuit_free(&circuits[i]);
    aig_circuit_free(&copies[i]);
    aig_simulation_free(&simulations[i]);
    aig_simulation_free(&simulation_copies[i]);
    aig_unrolling_free(&unrollings[i]);
  }
  calls = false;
  printf("script %ld\n", taken);
}

/* The number of the call that a line begins with. */
static size_t call_of(const char *line, size_t length) {
  for (size_t i = 0; i < sizeof CALLS / sizeof *CALLS; i++) {
    if (!strncmp(CALLS[i].name, line, length) && !CALLS[i].name[length]) return i;
  }
  end(line);
  return 0;
}

int main(int argc, char **argv) {
  const bool is_refusing = argc == 2 && !strcmp(argv[1], "memory");
  char *line = NULL;
  size_t room = 0;
  make_table();
  while (getline(&line, &room, stdin) > 0) {
    const size_t length = strcspn(line, " \n");
    if (!strncmp(line, "script", length)) {
      begin_anew();
    } else {
      const size_t call = call_of(line, length);
      char *told = is_refusing ? refuse_each(call, line + length) : line_of(make(call, line + length, 0));
      puts(told);
      free(told);
    }
  }
  for (size_t i = 0; i < sizeof seen / sizeof *seen; i++) {
    if (seen[i]) printf("%ld: %s\n", seen[i], CALLS[i].name);
  }
  free(line);
  return 0;
}
