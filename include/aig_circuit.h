/* Circuits in memory, simulations of them, and circuits that are unrolled step by step: a part of aig.h, which includes it.
 *
 * A handle holds a circuit, a simulation, an unrolled circuit, or nothing. It is initialised with AIG_NONE, and `aig_circuit_free`,
 * `aig_simulation_free` or `aig_unrolling_free` frees what it holds. A circuit is a list of nodes. Node 0 is false, and each other node
 * is a leaf or the and of two edges to nodes before it. The number of a node is its position in the list. An edge is written as a
 * literal: twice the number of its node, plus 1 if the edge is inverted. So 0 is false, and 1 is true. Inputs and the leaves of latches
 * are distinct leaves. A leaf that is neither is called free. A circuit also has four lists of property edges, a list of justice
 * properties, which are lists of edges, and names of nodes.
 *
 * In addition to the requirements in aig.h, the caller has to meet these:
 * - A handle is initialised with AIG_NONE. The caller neither reads nor writes its member, and doesn't copy a handle that holds something.
 *   A handle may be moved, if its old location isn't used again.
 * - If a call takes two handles, they are different. The memory of a handle doesn't overlap other memory of the call.
 * - Only one call at a time is made on a handle, even if the call only reads. So two threads must not read the same circuit at the same
 *   time. `aig_circuit_clone` creates a second circuit for a second thread, and `aig_simulation_clone` a second simulation. A handle may
 *   be passed from one thread to another, if a lock or a join synchronises them.
 * - A `bool` is 0 or 1.
 *
 * Every call returns a status, except the calls that free a handle. If a handle holds nothing, the status is AIG_EMPTY, which is tested
 * first. But the handles of `aig_circuit_new` and `aig_circuit_from_aiger`, and those into which a call puts a result, may be empty. After
 * every status except AIG_DONE, all handles hold the same as before, and the caller's memory is unchanged, except `*needed` after
 * AIG_SMALL. AIG_MEMORY is possible for each call that adds, names, copies, creates or simulates something, and for each call that returns
 * a list, a name or a text or binary form, except `aig_circuit_inputs` and `aig_unrolling_added_inputs`.
 *
 * AIG_RANGE means that an edge, a node, an entry, a list or a step that the caller passed doesn't exist. A call that adds nodes returns
 * AIG_FULL if the circuit could then have more than 2^31 nodes. A call that returns edges returns AIG_FULL if the circuit has more than
 * 2^31 nodes, which is possible after `aig_circuit_merge`, `aig_circuit_unroll` and other transforms. Calls that return clauses
 * (`aig_circuit_cnf`, and the calls on an unrolling) return AIG_FULL also for exactly 2^31 nodes, because the variable of the last node
 * would have no DIMACS number.
 *
 * Like other answers, a list is written to the front of `out`. After AIG_SMALL, `*needed` is the number of its items.
 */
#ifndef AIG_CIRCUIT_H
#define AIG_CIRCUIT_H

#include <stdbool.h>
#include <stddef.h>
#include <stdint.h>

#ifdef __cplusplus
extern "C" {
#endif

/* A circuit, or nothing. */
typedef struct aig_circuit {
  void *held;
} aig_circuit_t;

/* A simulation with three values, of a copy of a circuit, or nothing. */
typedef struct aig_simulation {
  void *held;
} aig_simulation_t;

/* A copy of a circuit that is unrolled step by step, or nothing. */
typedef struct aig_unrolling {
  void *held;
} aig_unrolling_t;

/* The initial value of a handle. */
#define AIG_NONE \
  { 0 }

/* The lists of property edges. */
enum aig_list { AIG_OUTPUTS = 0, AIG_BADS = 1, AIG_CONSTRAINTS = 2, AIG_FAIRNESS = 3 };

/* The values of a simulation with three values. */
enum aig_value { AIG_FALSE = 0, AIG_TRUE = 1, AIG_UNKNOWN = 2 };

/* The kinds of nodes. */
enum aig_kind { AIG_KIND_FALSE = 0, AIG_KIND_LEAF = 1, AIG_KIND_AND = 2 };

/* A node: its kind, and the literals of its operands, which are 0 if it isn't a gate. The first operand isn't greater than the second. */
typedef struct aig_node {
  uint32_t kind;
  uint32_t fanin0;
  uint32_t fanin1;
} aig_node_t;

/* A latch: the number of its leaf, the literal of its next edge, whether it has an initial edge, and the literal of this edge, or 0. */
typedef struct aig_latch {
  size_t input;
  uint32_t next;
  uint32_t init;
  bool has_init;
} aig_latch_t;

/* ---- handles and files */

/* Puts the circuit that has only node 0 into a handle. The previous contents of the handle are freed. */
uint32_t aig_circuit_new(aig_circuit_t *circuit);

/* Frees the contents of a handle, if there are any. Afterwards the handle holds nothing. */
void aig_circuit_free(aig_circuit_t *circuit);

/* Puts a copy of a circuit into another handle. The previous contents of that handle are freed. */
uint32_t aig_circuit_clone(aig_circuit_t *circuit, aig_circuit_t *to);

/* Puts the circuit of a file, text or binary, into a handle. The previous contents of the handle are freed. The file may have at most
 * `limit` variables, including the constant false. If `limit` isn't from 1 to 2^31, the status is AIG_RANGE. If the file is refused, the
 * status is from 10 to 31. */
uint32_t aig_circuit_from_aiger(aig_circuit_t *circuit, const uint8_t *file, size_t file_len, size_t limit);

/* Returns the text form of a circuit. If the circuit can't be written, the status is the first of AIG_FREE_LEAF, AIG_INITIAL_EDGE,
 * AIG_LINE_FEED and AIG_UNWRITABLE that applies. */
uint32_t aig_circuit_write_text(aig_circuit_t *circuit, uint8_t *out, size_t out_len, size_t *needed);

/* Returns the binary form of a circuit, with the numbers of nodes of `aig_circuit_reencode`. The statuses are those of
 * `aig_circuit_write_text`. */
uint32_t aig_circuit_write_binary(aig_circuit_t *circuit, uint8_t *out, size_t out_len, size_t *needed);

/* ---- leaves and latches */

/* Adds a free leaf, and returns its number. */
uint32_t aig_circuit_new_leaf_node(aig_circuit_t *circuit, size_t *node);

/* Adds a leaf as the last input, and returns its number. */
uint32_t aig_circuit_new_input(aig_circuit_t *circuit, size_t *node);

/* Adds a free leaf of the circuit to the inputs, as the last input. The status is AIG_NOT_FREE if the node isn't a free leaf. */
uint32_t aig_circuit_add_input(aig_circuit_t *circuit, size_t node);

/* Adds a leaf and a latch with this leaf, and returns the number of the leaf. The new latch is the last one. It has the next edge `next`
 * and, if `has_init` is true, the initial edge `init`. Both edges have to belong to the circuit before the call. If `has_init` is false,
 * `init` is ignored. */
uint32_t aig_circuit_new_latch(aig_circuit_t *circuit, uint32_t next, bool has_init, uint32_t init, size_t *node);

/* Adds a latch, with these edges, whose leaf is a free leaf of the circuit. The status is AIG_NOT_FREE if the node isn't a free leaf.
 * This is tested before AIG_RANGE for the edges. */
uint32_t aig_circuit_add_latch(aig_circuit_t *circuit, size_t node, uint32_t next, bool has_init, uint32_t init);

/* Replaces the next edge of latch `i`, counted from 0. */
uint32_t aig_circuit_set_next(aig_circuit_t *circuit, size_t i, uint32_t next);

/* Replaces the initial edge of latch `i`, counted from 0, by `init`. If `has_init` is false, the latch has no initial edge afterwards. */
uint32_t aig_circuit_set_init(aig_circuit_t *circuit, size_t i, bool has_init, uint32_t init);

/* ---- gates: each call returns an edge */

/* Adds a gate for the and of two edges. */
uint32_t aig_circuit_trivial_new_and_node(aig_circuit_t *circuit, uint32_t a, uint32_t b, uint32_t *edge);

/* Returns the and of two edges, and adds at most one gate. If an edge is constant, or both edges have the same node, no gate is added,
 * and the returned edge is a constant or one of the two. */
uint32_t aig_circuit_new_and_node(aig_circuit_t *circuit, uint32_t a, uint32_t b, uint32_t *edge);

/* Adds a gate for the and of the inverses of two edges, and returns the inverse of this gate, which is the or of the two edges. */
uint32_t aig_circuit_trivial_new_or_node(aig_circuit_t *circuit, uint32_t a, uint32_t b, uint32_t *edge);

/* Returns the or of two edges, which is the inverse of `aig_circuit_new_and_node` of their inverses. */
uint32_t aig_circuit_new_or_node(aig_circuit_t *circuit, uint32_t a, uint32_t b, uint32_t *edge);

/* Returns an edge that is true if and only if the first edge implies the second. It is `aig_circuit_new_or_node` of the inverse of the
 * first edge and the second edge. */
uint32_t aig_circuit_new_imply_node(aig_circuit_t *circuit, uint32_t a, uint32_t b, uint32_t *edge);

/* Returns an edge that is true if and only if two edges are equal. It is `aig_circuit_new_or_node` of two ands by
 * `aig_circuit_new_and_node`: the and of the edges, and the and of their inverses. */
uint32_t aig_circuit_new_eq_node(aig_circuit_t *circuit, uint32_t a, uint32_t b, uint32_t *edge);

/* Returns the and of edges, combined from left to right, with a gate for each edge after the first. If there are no edges, the result is
 * true. */
uint32_t aig_circuit_trivial_new_ands_node(aig_circuit_t *circuit, const uint32_t *edges, size_t edges_len, uint32_t *edge);

/* Returns the and of edges, combined from left to right by `aig_circuit_new_and_node`. If there are no edges, the result is true. */
uint32_t aig_circuit_new_ands_node(aig_circuit_t *circuit, const uint32_t *edges, size_t edges_len, uint32_t *edge);

/* Returns the or of edges, which is the inverse of `aig_circuit_trivial_new_ands_node` of their inverses. If there are no edges, the
 * result is false. */
uint32_t aig_circuit_trivial_new_ors_node(aig_circuit_t *circuit, const uint32_t *edges, size_t edges_len, uint32_t *edge);

/* Returns the or of edges, which is the inverse of `aig_circuit_new_ands_node` of their inverses. If there are no edges, the result is
 * false. */
uint32_t aig_circuit_new_ors_node(aig_circuit_t *circuit, const uint32_t *edges, size_t edges_len, uint32_t *edge);

/* Replaces the operands of a gate, and puts the new operands in order. The status is AIG_NOT_ADMITTED if the node isn't a gate, or if the
 * number of an operand isn't smaller than that of the gate. */
uint32_t aig_circuit_set_node(aig_circuit_t *circuit, size_t node, uint32_t a, uint32_t b);

/* ---- properties: `list` is one of AIG_OUTPUTS, AIG_BADS, AIG_CONSTRAINTS and AIG_FAIRNESS */

/* Appends an edge to a list. */
uint32_t aig_circuit_push_edge(aig_circuit_t *circuit, uint32_t list, uint32_t edge);

/* Replaces entry `i` of a list, counted from 0. */
uint32_t aig_circuit_set_edge(aig_circuit_t *circuit, uint32_t list, size_t i, uint32_t edge);

/* Replaces all entries of a list. The circuit is copied once. */
uint32_t aig_circuit_set_edges(aig_circuit_t *circuit, uint32_t list, const uint32_t *edges, size_t edges_len);

/* Empties a list. */
uint32_t aig_circuit_clear_edges(aig_circuit_t *circuit, uint32_t list);

/* Appends a justice property. */
uint32_t aig_circuit_push_justice(aig_circuit_t *circuit, const uint32_t *edges, size_t edges_len);

/* Drops all justice properties. */
uint32_t aig_circuit_clear_justice(aig_circuit_t *circuit);

/* ---- names */

/* Returns the name of a node, in UTF-8. The status is AIG_NO_NAME if the node has no name, or doesn't exist. */
uint32_t aig_circuit_get_symbol(aig_circuit_t *circuit, size_t node, uint8_t *out, size_t out_len, size_t *needed);

/* Sets the name of a node, and replaces an older name. If the node doesn't exist, the status is AIG_RANGE, which is tested before
 * AIG_NOT_UTF8. */
uint32_t aig_circuit_set_symbol(aig_circuit_t *circuit, size_t node, const uint8_t *name, size_t name_len);

/* ---- what a circuit has */

/* Returns the number of nodes, including node 0. */
uint32_t aig_circuit_num_nodes(aig_circuit_t *circuit, size_t *count);

/* Returns the nodes, in order. */
uint32_t aig_circuit_nodes(aig_circuit_t *circuit, aig_node_t *out, size_t out_len, size_t *needed);

/* Returns the numbers of the inputs, in order. */
uint32_t aig_circuit_inputs(aig_circuit_t *circuit, size_t *out, size_t out_len, size_t *needed);

/* Returns the latches, in order. */
uint32_t aig_circuit_latchs(aig_circuit_t *circuit, aig_latch_t *out, size_t out_len, size_t *needed);

/* Returns the entries of a list, in order. */
uint32_t aig_circuit_edges(aig_circuit_t *circuit, uint32_t list, uint32_t *out, size_t out_len, size_t *needed);

/* Returns the number of justice properties. */
uint32_t aig_circuit_num_justice(aig_circuit_t *circuit, size_t *count);

/* Returns the edges of justice property `i`, counted from 0. */
uint32_t aig_circuit_justice(aig_circuit_t *circuit, size_t i, uint32_t *out, size_t out_len, size_t *needed);

/* Returns the numbers of the gates, in increasing order. */
uint32_t aig_circuit_ands(aig_circuit_t *circuit, size_t *out, size_t out_len, size_t *needed);

/* Returns the numbers of the nodes that have names, in increasing order. */
uint32_t aig_circuit_symbols(aig_circuit_t *circuit, size_t *out, size_t out_len, size_t *needed);

/* Returns whether a node with this number exists. */
uint32_t aig_circuit_has_node(aig_circuit_t *circuit, size_t node, bool *answer);

/* Returns whether the node of an edge exists. */
uint32_t aig_circuit_has_edge(aig_circuit_t *circuit, uint32_t edge, bool *answer);

/* Returns whether a node exists and is a free leaf. */
uint32_t aig_circuit_is_free_leaf(aig_circuit_t *circuit, size_t node, bool *answer);

/* Returns whether the circuit has no free leaves. */
uint32_t aig_circuit_is_closed(aig_circuit_t *circuit, bool *answer);

/* Returns whether the circuit has at most 2^31 nodes. */
uint32_t aig_circuit_fits_lits(aig_circuit_t *circuit, bool *answer);

/* Returns whether `aig_circuit_set_node` accepts these arguments. */
uint32_t aig_circuit_admits(aig_circuit_t *circuit, size_t node, uint32_t a, uint32_t b, bool *answer);

/* Returns whether a circuit's first nodes are those of another, and both have latches with the same leaves in the same order. */
uint32_t aig_circuit_begins_with(aig_circuit_t *circuit, aig_circuit_t *from, bool *answer);

/* ---- cones: each call returns for each node whether it is in the cone */

/* Marks the nodes of the given edges, and all nodes that can be reached from them along operands. Node 0 is marked only if it can be
 * reached. */
uint32_t aig_circuit_fanin_logic_cone(aig_circuit_t *circuit, const uint32_t *edges, size_t edges_len, bool *out, size_t out_len,
                                      size_t *needed);

/* Marks node 0, the given nodes, and all nodes that can be reached from them along operands and, from the leaf of a latch, along its next
 * edge. */
uint32_t aig_circuit_coi(aig_circuit_t *circuit, const size_t *roots, size_t roots_len, bool *out, size_t out_len, size_t *needed);

/* ---- transforms: each call replaces the circuit by another one */

/* Replaces the circuit by its cone of influence. This consists of node 0 and the nodes that `aig_circuit_coi` marks for the nodes of all
 * properties, the leaves of all latches and the nodes of all initial edges that aren't constant. They keep their order. */
uint32_t aig_circuit_coi_refine(aig_circuit_t *circuit);

/* Appends the nodes of another circuit, except node 0, and the entries of all its lists. If the circuit had n nodes before, node x > 0 of
 * the other circuit becomes node x + n - 1. The names of the other circuit aren't copied. */
uint32_t aig_circuit_merge(aig_circuit_t *circuit, aig_circuit_t *other);

/* Moves all constraints into the first bad edge and the first output. Afterwards these two are true only if all constraints have been
 * true so far, which a new latch records. The circuit then has no constraints. */
uint32_t aig_circuit_aig_move(aig_circuit_t *circuit);

/* Replaces the bad edges by one bad edge, which is their `aig_circuit_new_ors_node`. */
uint32_t aig_circuit_compress_property(aig_circuit_t *circuit);

/* Replaces initial edges that aren't constant by constraints, and adds a latch that is true only at step 0. */
uint32_t aig_circuit_gate_init_to_constraint(aig_circuit_t *circuit);

/* Renumbers the nodes in the order of the binary form: inputs first, then the leaves of latches, then gates. The status is AIG_FREE_LEAF
 * if the circuit has a free leaf. */
uint32_t aig_circuit_reencode(aig_circuit_t *circuit);

/* Adds one step of the circuit `from` to `circuit`, which contains the previous steps. The status is AIG_NO_BEGINNING if `circuit`
 * doesn't begin with the nodes of `from` (`aig_circuit_begins_with`). */
uint32_t aig_circuit_unroll(aig_circuit_t *circuit, aig_circuit_t *from);

/* Adds `k` further steps. */
uint32_t aig_circuit_unroll_to(aig_circuit_t *circuit, size_t k);

/* Merges all gates whose trees are equal (structural hashing). */
uint32_t aig_circuit_strash(aig_circuit_t *circuit);

/* ---- clauses */

/* Returns the clauses of a circuit, as DIMACS numbers with a 0 after each clause: the clauses of node 0, then those of node 1 and so on.
 * Node n has the variable n + 1. The clauses determine the value of each edge of a property or a latch from the values of the leaves.
 * `optimize` selects whether exclusive ors and if-then-elses have shorter clauses of their own. The status is AIG_FULL also for exactly
 * 2^31 nodes, because the last variable would have no number. */
uint32_t aig_circuit_cnf(aig_circuit_t *circuit, bool optimize, int32_t *out, size_t out_len, size_t *needed);

/* ---- simulation with three values: each value has to be AIG_FALSE, AIG_TRUE or AIG_UNKNOWN, otherwise the status is AIG_VALUE. If the
 * number of values isn't the number of inputs or latches, the status is AIG_COUNT, which is tested first. A state has a value for each
 * latch, in order. */

/* Returns the value of each node, in order, for the given values of inputs and latches. Free leaves are unknown. */
uint32_t aig_circuit_ternary_simulate(aig_circuit_t *circuit, const uint8_t *inputs, size_t inputs_len, const uint8_t *latchs,
                                      size_t latchs_len, uint8_t *out, size_t out_len, size_t *needed);

/* Simulates one step from the given state with the given inputs. Returns the value of each node, and replaces `state` by the next state,
 * that is, by the values of the next edges. After AIG_SMALL the state is unchanged. */
uint32_t aig_circuit_simulate(aig_circuit_t *circuit, uint8_t *state, size_t state_len, const uint8_t *inputs, size_t inputs_len,
                              uint8_t *out, size_t out_len, size_t *needed);

/* ---- simulations: each contains a circuit, the state in which its next step begins, and the values of the nodes in its last step */

/* Puts a simulation of a copy of a circuit, which begins in the given state, into a handle. The previous contents of the handle are
 * freed. Later changes of the circuit don't affect the simulation. */
uint32_t aig_simulation_new(aig_circuit_t *circuit, const uint8_t *state, size_t state_len, aig_simulation_t *simulation);

/* Frees the contents of a handle, if there are any. Afterwards the handle holds nothing. */
void aig_simulation_free(aig_simulation_t *simulation);

/* Puts a copy of a simulation into another handle. The previous contents of that handle are freed. */
uint32_t aig_simulation_clone(aig_simulation_t *simulation, aig_simulation_t *to);

/* Simulates one step with the given inputs, and replaces the state by the next state. */
uint32_t aig_simulation_simulate(aig_simulation_t *simulation, const uint8_t *inputs, size_t inputs_len);

/* Returns whether an edge has a value. This is the case if a step was simulated and the node of the edge exists. */
uint32_t aig_simulation_has_value(aig_simulation_t *simulation, uint32_t edge, bool *answer);

/* Returns the value of an edge in the last step. The status is AIG_RANGE if the edge has no value (`aig_simulation_has_value`). */
uint32_t aig_simulation_value(aig_simulation_t *simulation, uint32_t edge, uint8_t *value);

/* Returns the state in which the next step begins. */
uint32_t aig_simulation_state(aig_simulation_t *simulation, uint8_t *out, size_t out_len, size_t *needed);

/* Simulates `steps` steps, returns the value of an edge in each step, and replaces the state by the last next state. `inputs` contains
 * the values of the inputs in the first step, then those in the second step and so on. AIG_RANGE for the edge is tested before AIG_COUNT.
 * After AIG_SMALL the simulation is unchanged. If `steps` is 0, nothing changes. */
uint32_t aig_simulation_simulate_all(aig_simulation_t *simulation, const uint8_t *inputs, size_t inputs_len, size_t steps, uint32_t edge,
                                     uint8_t *out, size_t out_len, size_t *needed);

/* ---- unrolling step by step, for incremental solvers (IPASIR)
 *
 * The clauses of a step depend only on the circuit and the step. They don't change if steps are added later, and a caller can get each
 * list several times. The variables are the nodes of the unrolled circuit. Node n has the variable n + 1, whose meaning never changes. Each
 * gate has the clauses of an and gate, and each constraint of the step has a clause of its own. So the assignments that satisfy the clauses
 * of the steps 0 to k are exactly the runs of k + 1 steps, from any state, on which every constraint is true. Together with
 * `aig_unrolling_initial_clauses`, which don't belong to any step, they are the runs from an initial state. To find a run that is bad at
 * step k, use a bad edge of this step as an assumption. Its literal 2 * n is the DIMACS number n + 1, and 2 * n + 1 is -(n + 1). With k
 * further steps, there are at most n + k * (n - 1 - l) variables, if the circuit has n nodes and l latches. For a step that wasn't added,
 * the status is AIG_RANGE. */

/* Puts an unrolling of a copy of a circuit, without further steps, into a handle. The previous contents of the handle are freed. Later
 * changes of the circuit don't affect the unrolling. The status is AIG_FULL if the circuit has 2^31 nodes or more. */
uint32_t aig_unrolling_new(aig_circuit_t *circuit, aig_unrolling_t *unrolling);

/* Frees the contents of a handle, if there are any. Afterwards the handle holds nothing. */
void aig_unrolling_free(aig_unrolling_t *unrolling);

/* Adds a step, in time linear in the size of the circuit. The status is AIG_FULL if there could then be 2^31 nodes or more. For this
 * test, each gate and each leaf that doesn't belong to a latch counts as one more node. */
uint32_t aig_unrolling_add_step(aig_unrolling_t *unrolling);

/* Returns the number of steps that were added. */
uint32_t aig_unrolling_steps(aig_unrolling_t *unrolling, size_t *count);

/* Returns the clauses of a step, as DIMACS numbers with a 0 after each clause: the clauses of each node that the step adds, in order, and
 * for each constraint a clause which states that it is true. Step 0 has the nodes of the circuit. Its first clause states that variable 1
 * is false. */
uint32_t aig_unrolling_step_clauses(aig_unrolling_t *unrolling, size_t step, int32_t *out, size_t out_len, size_t *needed);

/* Returns clauses which state that each latch with an initial edge has the value of this edge at step 0, as DIMACS numbers with a 0 after
 * each clause. */
uint32_t aig_unrolling_initial_clauses(aig_unrolling_t *unrolling, int32_t *out, size_t out_len, size_t *needed);

/* Returns the literals of the bad edges of a step, in order. */
uint32_t aig_unrolling_bads(aig_unrolling_t *unrolling, size_t step, uint32_t *out, size_t out_len, size_t *needed);

/* Returns the nodes of the inputs that a step adds. The r-th of them corresponds to the r-th leaf of the circuit that doesn't belong to a
 * latch, in increasing order. Step 0 adds no inputs, because there the leaves of the circuit represent themselves. So the status is
 * AIG_RANGE also for step 0. */
uint32_t aig_unrolling_added_inputs(aig_unrolling_t *unrolling, size_t step, size_t *out, size_t out_len, size_t *needed);

/* Returns AIG_DONE only if no run of the circuit from an initial state, under the constraints at each step up to `step`, reaches a bad
 * state at `step`. `proof` has to refute the following clauses, numbered from 1: those of the steps 0 to `step`, in order, those of the
 * initial values, and one clause of the bad edges of `step`. The call generates these clauses again, so it doesn't matter what the caller
 * did with them. If the proof is refused, the status is 40 or greater. */
uint32_t aig_unrolling_check_refuted(aig_unrolling_t *unrolling, size_t step, const uint8_t *proof, size_t proof_len);

/* Returns AIG_DONE only if no run of `k` + 2 steps, from any state and under the constraints at each step, is bad only at its last step
 * (k-induction). So if no run from an initial state reaches a bad state at the steps 0 to `k`, no such run ever reaches one. `proof` has
 * to refute the following clauses, which are numbered from 1 in this order. First come the clauses of the steps 0 to `k` + 1, in order.
 * For each bad edge of the steps 0 to `k`, in order, a clause follows which states that the edge is false. The last clause contains the
 * bad edges of step `k` + 1. The status is AIG_RANGE if fewer than `k` + 1 steps were added. */
uint32_t aig_unrolling_check_inductive(aig_unrolling_t *unrolling, size_t k, const uint8_t *proof, size_t proof_len);

#ifdef __cplusplus
}
#endif
#endif
