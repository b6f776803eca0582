// A bounded model checker with one incremental solver, whose answers it has checked: incremental FILE [BOUND]
//
//     g++ -std=c++17 -O2 incremental.cpp $(pkg-config --cflags --libs aig) -lcadical -o incremental
#include "aig.hpp"
#include <cadical.hpp>
#include <fstream>
#include <iostream>
#include <iterator>
#include <string>

// Returns an answer. Without one the program ends.
template <class T> T take(aig::Result<T> result) {
  if (!result) std::exit((std::cerr << "incremental: " << result.status().message().c_str() << "\n", 2));
  return *std::move(result);
}
void require(aig::Status status) { take(status ? aig::Result<bool>(true) : status); }
int literal(aig::Edge edge) { return (edge.is_inverted() ? -1 : 1) * static_cast<int>(edge.node() + 1); }

// The clauses that a solver learns, as a proof.
struct Proof : CaDiCaL::Learner {
  std::string text;
  bool learning(int) override { return true; }
  void learn(int lit) override { text += std::to_string(lit) + (lit ? " " : "\n"); }
};

// Adds a last bad edge, which is true from the first step on at which a bad edge is true. So a proof about one step is about all before.
void keep_bad(aig::Circuit &circuit) {
  const aig::Edge no = aig::Edge::constant(false);
  aig::Signal any = circuit.signal(circuit.new_latch(no, no));
  for (aig::Edge bad : take(circuit.edges(AIG_BADS))) any = any | bad;
  require(circuit.set_next(take(circuit.latchs()).size() - 1, any));
  require(circuit.push_edge(AIG_BADS, any));
}

// Returns the witness that the solver's values are, of a run that is bad at step k: which bad edge, the first state, and all inputs.
std::string witness(aig::Circuit &circuit, aig::Unrolling &steps, std::size_t k, CaDiCaL::Solver &solver) {
  const auto is_true = [&](aig::Edge edge) { return (solver.val(static_cast<int>(edge.node() + 1)) > 0) != edge.is_inverted(); };
  const auto digit = [&](std::size_t node) { return is_true(aig::Edge::to(node)) ? '1' : '0'; };
  std::size_t bad = 0;
  for (const auto bads = take(steps.bads(k)); !is_true(bads[bad]);) bad++;
  std::string text = "1\nb" + std::to_string(bad) + "\n";
  const auto latches = take(circuit.latchs());
  for (std::size_t i = 0; i + 1 < latches.size(); i++) text += digit(latches[i].input);
  for (std::size_t step = 0; step <= k; step++) {
    text += '\n';
    for (std::size_t node : take(step ? steps.added_inputs(step) : circuit.inputs())) text += digit(node);
  }
  return text + "\n.\n";
}

int main(int argc, char **argv) {
  std::ifstream stream(argc > 1 ? argv[1] : "", std::ios::binary);
  const std::string bytes{std::istreambuf_iterator<char>(stream), {}};
  auto circuit = take(aig::Circuit::from_aiger(bytes, 1 << 24));
  keep_bad(circuit);
  auto steps = take(aig::Unrolling::make(circuit));
  CaDiCaL::Solver solver;
  Proof proof;
  solver.configure("plain"); // Each clause is learned, and none is made otherwise.
  solver.connect_learner(&proof);
  for (int number : take(steps.initial_clauses())) solver.add(number);
  for (std::size_t k = 0, bound = argc > 2 ? std::stoul(argv[2]) : 10; k <= bound; k++) {
    if (k) require(steps.add_step());
    for (int number : take(steps.step_clauses(k))) solver.add(number);
    const auto bads = take(steps.bads(k));
    const int bad = literal(bads[bads.size() - 1]);
    solver.assume(bad);
    if (solver.solve() == 10) return std::cout << witness(circuit, steps, k, solver), 1;
    for (int number : {-bad, 0}) solver.add(number), proof.learn(number);
    if (k != bound && (k & (k + 1))) continue; // All checks together take about as long as the last two.
    require(steps.check_refuted(k, proof.text + "0\n"));
    std::cout << "no bad state up to step " << k << "\n";
  }
}
