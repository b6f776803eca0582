/* Makes calls on circuits in memory from two threads at once, each on handles of its own: threads SECONDS
 *
 * In each round a thread makes circuits of random gates, copies, changes, writes, reads and simulates them. It has to come to the sum
 * that the same round has alone. Built with the sanitizer of threads, which says what two threads do to one place.
 */
#include "aig.h"
#include <pthread.h>
#include <stdio.h>
#include <stdlib.h>
#include <time.h>

enum { ROUNDS = 32, INPUTS = 8, LATCHES = 4, GATES = 60, ROOM = 1 << 16 };

static uint32_t alone[ROUNDS];
static time_t last;

/* What a round needs, of which each thread has its own. */
struct round {
  aig_circuit_t circuit, other;
  uint32_t state, sum;
  bool failed;
  uint8_t out[ROOM];
  int32_t clauses[ROOM];
};

static void want(struct round *round, uint32_t status) { round->failed |= status != AIG_DONE; }

static uint32_t next(struct round *round) {
  return (round->state = round->state * 1664525 + 1013904223) >> 8;
}

static void add(struct round *round, const void *at, size_t size) {
  for (size_t i = 0; i < size; i++) round->sum = round->sum * 31 + ((const uint8_t *)at)[i];
}

static uint32_t edge(struct round *round) {
  size_t count = 1;
  want(round, aig_circuit_num_nodes(&round->circuit, &count));
  return next(round) % (2 * count);
}

static void make_gates(struct round *round) {
  aig_circuit_t *circuit = &round->circuit;
  size_t node;
  uint32_t made;
  for (int i = 0; i < INPUTS; i++) want(round, aig_circuit_new_input(circuit, &node));
  for (int i = 0; i < LATCHES; i++) want(round, aig_circuit_new_latch(circuit, 0, true, i % 2, &node));
  for (int i = 0; i < GATES; i++) {
    const uint32_t a = edge(round), b = edge(round);
    want(round, aig_circuit_new_and_node(circuit, a, b, &made));
    want(round, aig_circuit_push_edge(circuit, next(round) % 4, made));
  }
  for (int i = 0; i < LATCHES; i++) want(round, aig_circuit_set_next(circuit, i, edge(round)));
  want(round, aig_circuit_set_symbol(circuit, 1, (const uint8_t *)"first", 5));
}

static void write_and_read(struct round *round, aig_circuit_t *from, aig_circuit_t *to) {
  size_t length = 0;
  want(round, aig_circuit_write_binary(from, round->out, ROOM, &length));
  add(round, round->out, length);
  want(round, aig_circuit_from_aiger(to, round->out, length, ROOM));
}

/* Makes a circuit, and another with a copy of it and further steps, and takes the clauses of that one. */
static void make_clauses(struct round *round) {
  size_t count = 0;
  want(round, aig_circuit_new(&round->circuit));
  make_gates(round);
  want(round, aig_circuit_clone(&round->circuit, &round->other));
  want(round, aig_circuit_strash(&round->circuit));
  want(round, aig_circuit_unroll_to(&round->other, 2));
  want(round, aig_circuit_merge(&round->other, &round->circuit));
  write_and_read(round, &round->other, &round->circuit);
  want(round, aig_circuit_cnf(&round->circuit, true, round->clauses, ROOM, &count));
  add(round, round->clauses, count * sizeof(int32_t));
}

/* Makes a circuit, simulates a step, and changes it. */
static void simulate(struct round *round) {
  uint8_t state[LATCHES] = {0}, inputs[INPUTS] = {0};
  size_t count = 0;
  want(round, aig_circuit_new(&round->circuit));
  make_gates(round);
  want(round, aig_circuit_simulate(&round->circuit, state, LATCHES, inputs, INPUTS, round->out, ROOM, &count));
  add(round, round->out, count);
  add(round, state, LATCHES);
  want(round, aig_circuit_aig_move(&round->circuit));
  write_and_read(round, &round->circuit, &round->other);
}

/* Makes all that a round has, and returns its sum. */
static uint32_t make(struct round *round, uint32_t seed) {
  round->state = seed;
  round->sum = 0;
  make_clauses(round);
  simulate(round);
  aig_circuit_free(&round->circuit);
  aig_circuit_free(&round->other);
  return round->sum;
}

static struct round *new_round(void) { return calloc(1, sizeof(struct round)); }

/* Makes rounds until the time ends. Returns a round that failed, and nothing else. */
static void *run(void *first) {
  struct round *round = new_round();
  for (uint32_t i = *(uint32_t *)first; !round->failed && time(NULL) < last; i++) {
    round->failed |= make(round, i % ROUNDS) != alone[i % ROUNDS];
  }
  if (round->failed) return round;
  free(round);
  return NULL;
}

int main(int argc, char **argv) {
  pthread_t threads[2];
  uint32_t firsts[] = {0, ROUNDS / 2};
  void *failed[] = {NULL, NULL};
  struct round *round = new_round();
  for (uint32_t i = 0; i < ROUNDS; i++) alone[i] = make(round, i);
  if (argc != 2 || round->failed) return 2;
  free(round);
  last = time(NULL) + atoi(argv[1]);
  for (int i = 0; i < 2; i++) pthread_create(&threads[i], NULL, run, &firsts[i]);
  for (int i = 0; i < 2; i++) pthread_join(threads[i], &failed[i]);
  if (failed[0] || failed[1]) puts("a round failed");
  return failed[0] || failed[1];
}
