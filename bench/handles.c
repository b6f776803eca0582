/* Makes calls on circuits in memory, of which callgrind counts the instructions: handles and COUNT, text FILE, unroll FILE K, cnf FILE K
 *
 * `and` makes COUNT gates; the others read a file, and print its text, the text of the circuit with K further steps, or nothing after the
 * clauses of that.
 */
#include "aig.h"
#include <stdio.h>
#include <stdlib.h>
#include <string.h>

static aig_circuit_t circuit;

static void want(uint32_t status) {
  if (status != AIG_DONE) exit(1);
}

static void make_gates(long count) {
  size_t node = 0;
  uint32_t edge = 2, made = 0;
  want(aig_circuit_new(&circuit));
  want(aig_circuit_new_input(&circuit, &node));
  want(aig_circuit_new_input(&circuit, &node));
  for (long i = 0; i < count; i++) {
    want(aig_circuit_new_and_node(&circuit, edge, i & 1 ? 4 : 5, &made));
    edge = made ^ 1;
  }
}

static void read_file(const char *path) {
  FILE *file = fopen(path, "rb");
  if (!file || fseek(file, 0, SEEK_END)) exit(2);
  const size_t length = ftell(file);
  uint8_t *bytes = malloc(length + 1);
  rewind(file);
  if (fread(bytes, 1, length, file) != length) exit(2);
  want(aig_circuit_from_aiger(&circuit, bytes, length, 1 << 24));
  free(bytes);
  fclose(file);
}

static void print_text(size_t room) {
  uint8_t *out = malloc(room);
  want(aig_circuit_write_text(&circuit, out, room, &room));
  fwrite(out, 1, room, stdout);
  free(out);
}

static void take_clauses(size_t room) {
  int32_t *out = malloc(room * sizeof(int32_t));
  want(aig_circuit_cnf(&circuit, true, out, room, &room));
  free(out);
}

int main(int argc, char **argv) {
  size_t nodes = 0;
  if (argc < 3) return 2;
  if (!strcmp(argv[1], "and")) {
    make_gates(atol(argv[2]));
  } else {
    read_file(argv[2]);
    if (argc > 3) want(aig_circuit_unroll_to(&circuit, atol(argv[3])));
    want(aig_circuit_num_nodes(&circuit, &nodes));
    if (strcmp(argv[1], "cnf")) print_text(64 * nodes);
    else take_clauses(16 * nodes);
  }
  aig_circuit_free(&circuit);
  return 0;
}
