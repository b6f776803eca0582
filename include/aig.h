/* The proved circuit library, for C.
 *
 * A call takes the bytes of files and returns bytes or numbers, and a status. Files are in the AIGER format, text or binary, with up to
 * 2^24 variables. Circuits with their further steps have up to 2^24 nodes. The promises of each call are proved. The requirements on the
 * caller aren't checked.
 *
 * The caller owns all memory. A call reads the memory behind its `const` pointers, and writes `out` and the memory behind its last
 * pointers. It frees all memory that it allocates by malloc before it returns, and stores nothing between calls.
 *
 * The caller has to meet these requirements:
 * - A pointer that is passed with a length points to this number of items. It isn't null, not even if the length is 0.
 * - The memory that a call writes doesn't overlap memory that it reads, nor other memory that it writes.
 * - malloc, realloc and free belong to the same allocator.
 * - Calls aren't made from a signal handler, nor in a child process that was forked by a process with several threads.
 *
 * Calls can be made from several threads at once.
 *
 * A call writes its answer to the front of `out`, which has space for `out_len` items, and sets `*needed` to the number of items. If the
 * answer doesn't fit, the status is AIG_SMALL, `out` is unchanged, and `*needed` is exact. After every other status except AIG_DONE, a
 * call hasn't changed any memory of the caller. A call that only finds the size does the same work as the call that returns the answer.
 * So keep a buffer, and enlarge it after AIG_SMALL.
 *
 * `k` is the number of a step, counted from 0. `optimize` selects whether exclusive ors and if-then-elses have shorter clauses of their
 * own. It is the opposite of the word `raw` of the programs. Give a proof or a solver's answer with the same `k` and `optimize` as its
 * clauses. A proof is in LRAT or in DRAT, as text or binary. A solver's answer consists of the lines `s SATISFIABLE` and `v ..`.
 *
 * Bad states count only in runs that meet every constraint at each step. If there is no such run, no bad state is reached.
 * `aig_possible` can be used to find such a run. Files may have justice properties and fairness constraints. Only `aig_live`,
 * `aig_rounds`, `aig_check_lasso`, `aig_check_no_lasso`, `aig_check_no_lasso_to` and `aig_check_no_fair_run` use them. `aig_cone`,
 * `aig_reduce`, `aig_question`, `aig_miter` and `aig_join` drop them, and other calls keep them. Names of inputs and latches are kept,
 * and other names are dropped.
 */
#ifndef AIG_H
#define AIG_H

#include <stdbool.h>
#include <stddef.h>
#include <stdint.h>

#ifdef __cplusplus
extern "C" {
#endif

/* How a call ended. */
enum aig_status {
  AIG_DONE = 0,       /* The answer was returned, or the checked statement is true. */
  AIG_SMALL = 1,      /* The answer doesn't fit `out`. `*needed` is its length. */
  AIG_MEMORY = 2,     /* malloc or realloc returned null. This isn't a statement about the files. */
  AIG_STREAM = 3,     /* This status is reserved. No call returns it. */
  AIG_MANY_STEPS = 4, /* `k` is 2^32 or more. */
  AIG_TOO_LARGE = 5,  /* The circuit with its further steps may pass the limit. */
  AIG_NO_BADS = 6,    /* There is no bad state property, so there is nothing to check. */
  AIG_CROWDED = 7,    /* The clauses of a window may have more variables than the limit. */
  AIG_MISFIT = 8,     /* The numbers of inputs, outputs or other items of two files differ. */
  AIG_UNWRITABLE = 9, /* The new circuit is too large for the format. */

  /* The file is refused. */
  AIG_HEADER = 10,   /* The first line isn't a valid header line. */
  AIG_TOO_MANY = 11, /* The header line is valid, but the file has more variables than the limit. */
  AIG_DELTA = 12,    /* A gate of a binary file is cut, or its differences aren't allowed. */
  AIG_NAME = 13,     /* A line with a name is malformed, or its entry doesn't exist or already has a name. */

  /* The names of a witness circuit don't define which of its leaves correspond to those of the file. */
  AIG_UNKNOWN_LEAF = 14, /* A name doesn't contain the literal of such a leaf of the file. */
  AIG_TWICE = 15,        /* Two names contain the same literal. */

  /* A line of a section is malformed or cut. */
  AIG_SYNTAX_INPUTS = 16,
  AIG_SYNTAX_LATCHES = 17,
  AIG_SYNTAX_OUTPUTS = 18,
  AIG_SYNTAX_BADS = 19,
  AIG_SYNTAX_CONSTRAINTS = 20,
  AIG_SYNTAX_JUSTICE = 21,
  AIG_SYNTAX_FAIRNESS = 22,
  AIG_SYNTAX_GATES = 23,

  /* A number of a section isn't a literal that is allowed there. */
  AIG_LITERAL_INPUTS = 24,
  AIG_LITERAL_LATCHES = 25,
  AIG_LITERAL_OUTPUTS = 26,
  AIG_LITERAL_BADS = 27,
  AIG_LITERAL_CONSTRAINTS = 28,
  AIG_LITERAL_JUSTICE = 29,
  AIG_LITERAL_FAIRNESS = 30,
  AIG_LITERAL_GATES = 31,

  /* The file is accepted, but it has no answer. */
  /* 32 isn't used. */
  AIG_HAS_BADS = 33,       /* Outputs would become bad state properties, but the file already has bad state properties. */
  AIG_NO_OUTPUT = 34,      /* The number isn't that of an output. */
  AIG_LARGE_QUESTION = 35, /* While the question is built, it gets more nodes than the limit. */
  AIG_MANY_BADS = 36,      /* There are constraints and more than one bad state property. */
  AIG_NO_BAD = 37,         /* The number isn't that of a bad state property. */
  AIG_NO_JUSTICE = 38,     /* The number isn't that of a justice property. */
  AIG_CIRCULAR = 39,       /* Resets of a witness circuit depend on themselves. */

  /* A proof is refused. */
  AIG_PROOF_CLAUSES = 40,    /* A literal of the clauses has no variable. This has never happened in tests. */
  AIG_PROOF_LINE = 41,       /* A line isn't a step, or its format differs from that of the first line. */
  AIG_PROOF_LITERAL = 42,    /* A literal has no variable. */
  AIG_PROOF_UNNAMED = 43,    /* A step refers to a clause number that doesn't exist. */
  AIG_PROOF_TWICE = 44,      /* A clause number was used before. */
  AIG_PROOF_LARGE = 45,      /* A clause number exceeds four times the count of used numbers by 65,540 or more. */
  AIG_PROOF_STEP = 46,       /* A clause doesn't follow. */
  AIG_PROOF_ASYMMETRY = 47,  /* A step with hints for other clauses lacks the RAT property. */
  AIG_PROOF_BINARY = 48,     /* The bytes are neither a text nor a binary proof. */
  AIG_PROOF_UNFINISHED = 49, /* The proof ends before the empty clause. */

  /* A witness is refused. */
  AIG_WITNESS_STATUS = 60,   /* The first line of the witness isn't 1. */
  AIG_WITNESS_PROPERTY = 61, /* The second line of the witness isn't b (for a lasso also j) and the number of a property. */
  AIG_WITNESS_VALUES = 62,   /* A line of values is malformed, or the dot at the end is missing. */
  AIG_WITNESS_NONE = 63,     /* The file has only comments. */
  AIG_WITNESS_BAD = 64,      /* The witness is about a bad state property, but the call needs one about a justice property. */

  /* A witness shows no bad state, or no run at all. */
  AIG_SHOW_LATCHES = 70,    /* The number of values of the state isn't the number of latches. */
  AIG_SHOW_INPUTS = 71,     /* The number of values of a step isn't the number of inputs. */
  AIG_SHOW_NO_STEP = 72,    /* The witness has no step. */
  AIG_SHOW_NO_BAD = 73,     /* The number isn't that of a bad state property. */
  AIG_SHOW_START = 74,      /* The state isn't known to be initial. */
  AIG_SHOW_CONSTRAINT = 75, /* A constraint is not known to hold at a step. */
  AIG_SHOW_BAD = 76,        /* The bad state property is not known to hold at the last step. */

  /* A solver's answer is refused. */
  AIG_SOLUTION_UNSATISFIABLE = 80, /* The solver answered that there is no solution. */
  AIG_SOLUTION_UNKNOWN = 81,       /* The solver answered that it found neither a solution nor a proof. */
  AIG_SOLUTION_ANSWER = 82,        /* The text has no line with the answer. */
  AIG_SOLUTION_LINE = 83,          /* A line after the answer is malformed. */
  AIG_SOLUTION_LITERAL = 84,       /* A word isn't a literal or 0. */
  AIG_SOLUTION_VARIABLE = 85,      /* The clauses don't have the variable of a literal. */
  AIG_SOLUTION_CLASH = 86,         /* The answer has a literal and its inverse. */
  AIG_SOLUTION_UNFINISHED = 87,    /* The text ends before the 0 that ends the values. */
  AIG_SOLUTION_NO_BAD = 88,        /* No bad state property is true at the last step. */

  /* A witness shows a run, but no fair lasso. */
  AIG_LASSO_NO_JUSTICE = 100, /* The number isn't that of a justice property. */
  AIG_LASSO_NO_LOOP = 101,    /* No earlier state is known to be reached again after the last step. */
  AIG_LASSO_LITERAL = 102,    /* A literal of the justice property is not known to hold in the loop. */
  AIG_LASSO_FAIRNESS = 103,   /* A fairness literal is not known to hold in the loop. */

  /* A call on a circuit in memory is refused. */
  AIG_EMPTY = 110,        /* The handle holds nothing. */
  AIG_RANGE = 111,        /* An edge, a node, an entry, a list or a step doesn't exist, or `limit` is 0 or above 2^31. */
  AIG_FULL = 112,         /* The circuit has, or could get, more than 2^31 nodes; for clauses, 2^31 or more. */
  AIG_FREE_LEAF = 113,    /* A leaf is neither an input nor the leaf of a latch. */
  AIG_INITIAL_EDGE = 114, /* An initial edge isn't constant. */
  AIG_LINE_FEED = 115,    /* The name of an input or a latch has a line feed. */
  AIG_NOT_FREE = 116,     /* The node isn't a free leaf. */
  AIG_NOT_UTF8 = 117,     /* The name isn't UTF-8. */
  AIG_NO_NAME = 118,      /* The node has no name. */
  AIG_NOT_ADMITTED = 119, /* The node isn't a gate, or an operand has no smaller number. */
  AIG_NO_BEGINNING = 120, /* The circuit doesn't begin with the nodes of the other circuit. */
  AIG_COUNT = 121,        /* The number of values isn't the number of inputs or latches. */
  AIG_VALUE = 122,        /* A value isn't AIG_FALSE, AIG_TRUE or AIG_UNKNOWN. */

  /* These are added to a status of a call on two files, or about a live circuit. They identify what is refused. If none is added, the
   * status is about the first file, or about memory. */
  AIG_OTHER = 256,   /* The second file. */
  AIG_QUERY = 512,   /* The query of the circuit of the two, or of the live one, or its proof. */
  AIG_WINDOW = 1024, /* The window of that circuit, or its proof. */

  /* These are added to a status of a call with a proof for the first steps and one for a window, or with proofs for the conditions of a
   * witness circuit. */
  AIG_BASE = 2048, /* The question of the steps 0 to `k`, or for the condition `base`, or its proof. */
  AIG_STEP = 4096, /* The proof of the window, or the question for the condition `step`, or its proof. */

  /* This is added to a status of `aig_check_equal_by` if `aig_check_certified` returns the status for the miter's text, the certificate
   * and the proofs. */
  AIG_CERTIFICATE = 8192,

  /* These are added to a status of a call with a witness circuit. They identify the condition whose question or proof is refused. */
  AIG_RESET = 16384,
  AIG_TRANSITION = 32768,
  AIG_PROPERTY = 65536
};

/* Returns the meaning of a status as text, in the words that the programs print. The text has at most 128 bytes, and doesn't end with a 0
 * byte. */
uint32_t aig_message(uint32_t status, uint8_t *out, size_t out_len, size_t *needed);

/* Returns the text form of a file's circuit. */
uint32_t aig_text(const uint8_t *file, size_t file_len, uint8_t *out, size_t out_len, size_t *needed);

/* Returns the binary form of a file's circuit. */
uint32_t aig_binary(const uint8_t *file, size_t file_len, uint8_t *out, size_t out_len, size_t *needed);

/* Returns the text form of a file's circuit after structural hashing. */
uint32_t aig_strash(const uint8_t *file, size_t file_len, uint8_t *out, size_t out_len, size_t *needed);

/* Returns the text form of a file's circuit without the nodes on which neither a property nor a latch depends (cone of influence). All
 * latches are kept. */
uint32_t aig_refine(const uint8_t *file, size_t file_len, uint8_t *out, size_t out_len, size_t *needed);

/* Returns the text form of a file's circuit in the numbering of the binary form. */
uint32_t aig_reencode(const uint8_t *file, size_t file_len, uint8_t *out, size_t out_len, size_t *needed);

/* Returns the text form of a file's circuit with `k` further steps. The new circuit has the bad state properties and the constraints of
 * the steps 0 to `k`. So it doesn't show a bad state of a run that can't continue to step `k` under the constraints. `aig_question` also
 * finds such bad states. */
uint32_t aig_unroll(const uint8_t *file, size_t file_len, uint64_t k, uint8_t *out, size_t out_len, size_t *needed);

/* Returns the text form of a file's circuit without constraints. In the new circuit, the bad state property and the first output are true
 * only if every constraint has been true so far. A file with constraints and more than one bad state property is refused.
 * `aig_compress_bads` combines the bad state properties into one. */
uint32_t aig_move_constraints(const uint8_t *file, size_t file_len, uint8_t *out, size_t out_len, size_t *needed);

/* Returns the text form of a file's circuit with one bad state property, which is the or of the file's bad state properties. */
uint32_t aig_compress_bads(const uint8_t *file, size_t file_len, uint8_t *out, size_t out_len, size_t *needed);

/* Returns the text form of a file's circuit with its outputs as its bad state properties, and without outputs. This call is for files
 * from before AIGER 1.9, which can't have bad state properties. A file with bad state properties is refused. */
uint32_t aig_outputs_as_bads(const uint8_t *file, size_t file_len, uint8_t *out, size_t out_len, size_t *needed);

/* Returns the text form of a file's circuit with bad state property `n`, counted from 0, as its only bad state property. */
uint32_t aig_property_alone(const uint8_t *file, size_t file_len, size_t n, uint8_t *out, size_t out_len, size_t *needed);

/* Returns the text form of a file's circuit with true as its only bad state property. A bad state is reached at step K if and only if a
 * run of K + 1 steps meets every constraint at each step. */
uint32_t aig_possible(const uint8_t *file, size_t file_len, uint8_t *out, size_t out_len, size_t *needed);

/* Returns the text form of the cone of a file's output `n`, counted from 0. The cone is the part of the circuit on which this output, the
 * constraints and the latches depend. This output and the constraints are its only properties. */
uint32_t aig_cone(const uint8_t *file, size_t file_len, size_t n, uint8_t *out, size_t out_len, size_t *needed);

/* Returns the text form of the part of a file's circuit on which its bad state properties and constraints depend, with equal gates
 * merged. */
uint32_t aig_reduce(const uint8_t *file, size_t file_len, uint8_t *out, size_t out_len, size_t *needed);

/* Returns the text form of a circuit without latches, called a question. Its only output can be true if and only if a bad state of the
 * file's machine is reached at a step from 0 to `k`. A file without bad state properties is refused. */
uint32_t aig_question(const uint8_t *file, size_t file_len, uint64_t k, uint8_t *out, size_t out_len, size_t *needed);

/* Returns the counts of a file's circuit, one on each line: inputs, latches, outputs, gates, bads, constraints, justice, fairness and
 * levels. The number of levels is the largest number of gates on a path. */
uint32_t aig_info(const uint8_t *file, size_t file_len, uint8_t *out, size_t out_len, size_t *needed);

/* Returns the clauses, in the DIMACS format, of a file's circuit that is unrolled for `k` further steps. */
uint32_t aig_cnf(const uint8_t *file, size_t file_len, uint64_t k, bool optimize, uint8_t *out, size_t out_len, size_t *needed);

/* Returns the query for step `k`, in the DIMACS format: clauses that are satisfiable if and only if a run of the file's machine from an
 * initial state reaches a bad state at step `k`. If the file has no bad state properties, the clauses are unsatisfiable. */
uint32_t aig_query(const uint8_t *file, size_t file_len, uint64_t k, bool optimize, uint8_t *out, size_t out_len, size_t *needed);

/* Returns the clauses of the query as DIMACS numbers, with a 0 after each clause. A map follows, in the file's order and without a 0. It
 * has the literals of each input at step 0, at step 1 and so on up to step `k`, of each latch at step 0, and of each bad state property
 * at step `k`. `*variables` is the number of variables of the clauses. `*clauses_len` is the count of numbers that belong to the clauses,
 * so the map begins there. A file without bad state properties is refused. */
uint32_t aig_query_numbers(const uint8_t *file, size_t file_len, uint64_t k, bool optimize, int32_t *out, size_t out_len,
                           size_t *needed, size_t *variables, size_t *clauses_len);

/* Returns the clauses of the query, in the DIMACS format. They begin with a header comment, such as `c aigcheck clauses 5 raw sha256
 * SUM`, and with comments that list the literals of the inputs at each step, of the latches at step 0 and of the bad state properties at
 * step `k`. A file without bad state properties is refused. */
uint32_t aig_clauses(const uint8_t *file, size_t file_len, uint64_t k, bool optimize, uint8_t *out, size_t out_len,
                     size_t *needed);

/* Returns the clauses of the circuit of `aig_question`, and a clause which states that its output is true, in the DIMACS format. They
 * begin with a header comment, such as `c aigcheck bounded 5 sha256 SUM`. For each input of the question, a comment contains the input or
 * latch to which it corresponds, the step, and the variable. If the output is the constant false, the clauses are `-1 0` and `1 0`, which
 * contradict each other. */
uint32_t aig_bounded(const uint8_t *file, size_t file_len, uint64_t k, bool optimize, uint8_t *out, size_t out_len,
                     size_t *needed);

/* Returns clauses, in the DIMACS format, that are satisfiable if and only if the file's machine has a window: a run of `k` + 2 steps,
 * from any state, that is bad only at its last step. If `distinct` is true, all states of the window have to be different. The clauses
 * begin with a header comment, such as `c aigcheck window 3 distinct sha256 SUM`. */
uint32_t aig_window(const uint8_t *file, size_t file_len, uint64_t k, bool distinct, bool optimize, uint8_t *out,
                    size_t out_len, size_t *needed);

/* Returns AIG_DONE only if no run of a file's machine, from an initial state and under the constraints at each step, reaches a bad state
 * at step `k`. `proof` has to refute the clauses of `aig_query`. */
uint32_t aig_check_refuted(const uint8_t *file, size_t file_len, uint64_t k, bool optimize, const uint8_t *proof,
                           size_t proof_len);

/* Returns AIG_DONE only if no run from an initial state, under the constraints at each step, reaches a bad state at a step from 0 to `k`.
 * `proof` has to refute the clauses of `aig_bounded`. The proof isn't read if the output of `aig_question` is the constant false. */
uint32_t aig_check_refuted_to(const uint8_t *file, size_t file_len, uint64_t k, bool optimize, const uint8_t *proof,
                              size_t proof_len);

/* Returns AIG_DONE only if the following is true: if no run from an initial state, under the constraints at each step, reaches a bad
 * state at the steps 0 to `k`, no such run ever reaches one. `proof` has to refute the clauses of `aig_window`. */
uint32_t aig_check_inductive(const uint8_t *file, size_t file_len, uint64_t k, bool distinct, bool optimize,
                             const uint8_t *proof, size_t proof_len);

/* Returns AIG_DONE only if no run from an initial state, under the constraints at each step, ever reaches a bad state. `base` has to
 * refute the clauses of `aig_bounded`, and isn't read if the output of `aig_question` is the constant false. `step` has to refute the
 * clauses of `aig_window`. Both proofs are for the same `k`, but each has an option `optimize` of its own. */
uint32_t aig_check_safe(const uint8_t *file, size_t file_len, uint64_t k, bool distinct, bool base_optimize, const uint8_t *base,
                        size_t base_len, bool step_optimize, const uint8_t *step, size_t step_len);

/* Returns AIG_DONE only if no run from an initial state, under the constraints at each step, ever reaches a bad state. `certificate` is
 * an inductive certificate. It begins with the inputs and latches of the first file, in the same order, whatever their names. Its resets
 * are constants or open. In each state that violates its invariant, it is bad or violates one of its constraints. `base` has to refute
 * the clauses of `aig_query` for step 0, and `step` those of `aig_window` for k = 0 without `distinct`, both for the text that `aig_join`
 * returns. */
uint32_t aig_check_certified(const uint8_t *file, size_t file_len, const uint8_t *certificate, size_t certificate_len,
                             bool optimize, const uint8_t *base, size_t base_len, const uint8_t *step, size_t step_len);

/* Returns AIG_DONE only if no run from an initial state, under the constraints at each step, ever reaches a bad state. `witness` is a
 * witness circuit of the hardware model checking competition. Its resets may be any literals, but the resets of its own latches, which
 * don't correspond to latches of the first file, must not depend on themselves. An input with the name `= N` corresponds to the input of
 * the first file with the literal N, and a latch with such a name to the latch with this literal. N is the even literal in that file, or
 * the literal that follows from the position in a binary file, in decimal digits. If no input and no latch has a name that begins with `=
 * `, the first inputs and latches correspond to those of the first file, in order. For each condition of a certificate, there has to be a
 * proof that refutes the clauses that `aigcheck obligations FILE WITNESS CONDITION` prints. */
uint32_t aig_check_simulated(const uint8_t *file, size_t file_len, const uint8_t *witness, size_t witness_len, bool optimize,
                             const uint8_t *reset, size_t reset_len, const uint8_t *transition, size_t transition_len,
                             const uint8_t *property, size_t property_len, const uint8_t *base, size_t base_len,
                             const uint8_t *step, size_t step_len);

/* Returns AIG_DONE only if the machines of two files have the same outputs and bad state properties at step `k`, on all runs of both from
 * initial states, with the same inputs, that meet the constraints of both at each step. If there are no such runs, the answer is vacuous.
 * Constraints, justice and fairness aren't compared. `proof` has to refute the clauses of `aig_query` for the text that `aig_miter`
 * returns. */
uint32_t aig_check_equal(const uint8_t *file, size_t file_len, const uint8_t *other, size_t other_len, uint64_t k,
                         bool optimize, const uint8_t *proof, size_t proof_len);

/* Returns AIG_DONE only if two files are equal, as `aig_check_equal` defines it, at every step. `base` and `step` are proofs as for
 * `aig_check_safe`, for the text that `aig_miter` returns. */
uint32_t aig_check_always_equal(const uint8_t *file, size_t file_len, const uint8_t *other, size_t other_len, uint64_t k,
                                bool distinct, bool base_optimize, const uint8_t *base, size_t base_len, bool step_optimize,
                                const uint8_t *step, size_t step_len);

/* Returns AIG_DONE only if two files are equal, as `aig_check_equal` defines it, at every step. `certificate`, `base` and `step` have to
 * be accepted by `aig_check_certified` for the text that `aig_miter` returns. */
uint32_t aig_check_equal_by(const uint8_t *file, size_t file_len, const uint8_t *other, size_t other_len,
                            const uint8_t *certificate, size_t certificate_len, bool optimize, const uint8_t *base,
                            size_t base_len, const uint8_t *step, size_t step_len);

/* Returns the witness, in the format of AIGER 1.9, that a solver's answer to the query describes. The call checks the witness, so the
 * answer isn't trusted. If there is no witness, the status is 70 or greater. */
uint32_t aig_witness(const uint8_t *file, size_t file_len, uint64_t k, bool optimize, const uint8_t *solution,
                     size_t solution_len, uint8_t *out, size_t out_len, size_t *needed);

/* Returns a witness of a bad state at a step up to `k`, from a solver's answer to the clauses of `aig_bounded`. The call checks the
 * witness. If there is no witness, the status is 80 or greater. */
uint32_t aig_witness_to(const uint8_t *file, size_t file_len, uint64_t k, bool optimize, const uint8_t *solution,
                        size_t solution_len, uint8_t *out, size_t out_len, size_t *needed);

/* Returns AIG_DONE only if the witness shows that a file's machine reaches a bad state. `*bad` is the number of the bad state property,
 * and `*step` is the step at which it is true. Both are counted from 0. If the witness doesn't show a bad state, the status is 60 or
 * greater. The call doesn't read anything after the first witness. */
uint32_t aig_check_run(const uint8_t *file, size_t file_len, const uint8_t *witness, size_t witness_len, size_t *bad,
                       size_t *step);

/* Returns AIG_DONE only if the witness shows a fair lasso of a file's machine. Each run from an initial state with the values of the
 * witness then meets every constraint, and the state before step `*start` is reached again after step `*last`. Each literal of justice
 * property `*justice` and of fairness is true at a step of this loop. All three numbers are counted from 0. If the witness doesn't show a
 * fair lasso, the status is 60 or greater. The call doesn't read anything after the first witness. */
uint32_t aig_check_lasso(const uint8_t *file, size_t file_len, const uint8_t *witness, size_t witness_len, size_t *justice,
                         size_t *start, size_t *last);

/* Returns the text form of the live circuit of a file's justice property `j`, counted from 0. The bad state property of the live circuit
 * is true at a step if and only if the justice property has a fair lasso that ends there (liveness to safety). So the live circuit is
 * safe if and only if the justice property has no fair run. */
uint32_t aig_live(const uint8_t *file, size_t file_len, size_t j, uint8_t *out, size_t out_len, size_t *needed);

/* Returns the text form of a circuit that counts rounds of a file's justice property `j`, counted from 0. A round ends as soon as each
 * literal of the property and of fairness has been true in it. The bad state property of the circuit is true at a step if and only if
 * `count` rounds have ended by this step. If no bad state of the circuit is ever reached, the justice property has no fair run
 * (k-liveness). */
uint32_t aig_rounds(const uint8_t *file, size_t file_len, size_t j, size_t count, uint8_t *out, size_t out_len, size_t *needed);

/* Returns AIG_DONE only if a file's justice property `j`, counted from 0, has no fair lasso of `k` + 1 steps. A fair lasso is a run from
 * an initial state, under the constraints at each step, whose last step leads back to the state of an earlier step. Each literal of the
 * property and of fairness is true at a step of this loop. `proof` has to refute the clauses of `aig_query` for the text that `aig_live`
 * returns. It is only tested that this call derives the same circuit as `aig_live`. */
uint32_t aig_check_no_lasso(const uint8_t *file, size_t file_len, size_t j, uint64_t k, bool optimize, const uint8_t *proof,
                            size_t proof_len);

/* Returns AIG_DONE only if a file's justice property `j`, counted from 0, has no fair lasso of at most `k` + 1 steps. `proof` has to
 * refute the clauses of `aig_bounded` for the text that `aig_live` returns. The proof isn't read if the output of `aig_question` for this
 * text is the constant false. */
uint32_t aig_check_no_lasso_to(const uint8_t *file, size_t file_len, size_t j, uint64_t k, bool optimize, const uint8_t *proof,
                               size_t proof_len);

/* Returns AIG_DONE only if a file's justice property `j`, counted from 0, has no fair run. A fair run is an infinite run from an initial
 * state, under the constraints at each step, on which each literal of the property and of fairness is true infinitely often. `base` and
 * `step` are proofs as for `aig_check_safe`, for the text that `aig_live` returns. */
uint32_t aig_check_no_fair_run(const uint8_t *file, size_t file_len, size_t j, uint64_t k, bool distinct, bool base_optimize,
                               const uint8_t *base, size_t base_len, bool step_optimize, const uint8_t *step, size_t step_len);

/* Returns the text form of the miter of two files with the same numbers of inputs, outputs and bad state properties. The miter is a
 * circuit in which both files read the same inputs, with the constraints of both. The miter is bad if the outputs or bad state properties
 * of the two files differ. */
uint32_t aig_miter(const uint8_t *file, size_t file_len, const uint8_t *other, size_t other_len, uint8_t *out, size_t out_len,
                   size_t *needed);

/* Returns the text form of the product of a file's circuit and a certificate. Both proofs of `aig_check_certified` are about this
 * circuit. */
uint32_t aig_join(const uint8_t *file, size_t file_len, const uint8_t *certificate, size_t certificate_len, uint8_t *out,
                  size_t out_len, size_t *needed);

/* Returns the text form of two files side by side. Each list of the new circuit contains the items of the first file, and then those of
 * the second. The constraints of both files apply. */
uint32_t aig_merge(const uint8_t *file, size_t file_len, const uint8_t *other, size_t other_len, uint8_t *out, size_t out_len,
                   size_t *needed);

/* Returns the clauses, in the DIMACS format, that the proofs of `aig_check_certified` have to refute. They begin with a header comment,
 * such as `c aigcheck obligations sha256 SUM SUM`. The clauses for `base` follow the line `c base`, and those for `step` follow the line
 * `c step`. */
uint32_t aig_obligations(const uint8_t *file, size_t file_len, const uint8_t *certificate, size_t certificate_len, bool optimize,
                         uint8_t *out, size_t out_len, size_t *needed);

#ifdef __cplusplus
}
#endif

#include "aig_circuit.h"
#endif
