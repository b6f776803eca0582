// Makes the calls on circuits in memory that scripts on standard input say, through aig.hpp, and prints how each ended.
//
// Scripts and what is printed are those of tests/circuits/driver.c; the room for an answer, which a line ends with, isn't looked at. In
// every second line operators on signals take the place of the calls that they stand for.
#include "aig.hpp"

#include <cstdio>
#include <iostream>
#include <map>
#include <sstream>
#include <string>
#include <vector>

namespace {

using Bytes = std::vector<std::uint8_t>;

// ---- what is held

class Sum {
  std::uint32_t sum_ = ~0u;

public:
  void add(std::uint32_t word) {
    sum_ ^= word;
    for (int bit = 0; bit < 32; bit++) sum_ = sum_ >> 1 ^ (sum_ & 1 ? 0xedb88320u : 0);
  }
  template <class Items> void add_all(const Items &items) {
    add(static_cast<std::uint32_t>(items.size()));
    for (auto item : items) add_item(item);
  }
  std::uint32_t value() const { return ~sum_; }

private:
  void add_item(aig::Edge edge) { add(edge.literal()); }
  void add_item(const aig_node_t &node) { add(node.kind), add(node.fanin0), add(node.fanin1); }
  void add_item(const aig_latch_t &latch) {
    add(static_cast<std::uint32_t>(latch.input)), add(latch.next), add(latch.init), add(latch.has_init);
  }
  void add_item(std::size_t number) { add(static_cast<std::uint32_t>(number)); }
  void add_item(char byte) { add(static_cast<std::uint8_t>(byte)); }
  void add_item(std::uint8_t byte) { add(byte); }
  void add_item(std::int32_t number) { add(static_cast<std::uint32_t>(number)); }
};

void add_circuit(Sum &sum, aig::Circuit &circuit) {
  sum.add(static_cast<std::uint32_t>(*circuit.num_nodes()));
  for (const aig_node_t &node : *circuit.nodes()) sum.add(node.kind), sum.add(node.fanin0), sum.add(node.fanin1);
  sum.add_all(*circuit.inputs());
  sum.add_all(*circuit.latchs());
  for (std::uint32_t list = AIG_OUTPUTS; list <= AIG_FAIRNESS; list++) sum.add_all(*circuit.edges(list));
  const std::size_t count = *circuit.num_justice();
  sum.add(static_cast<std::uint32_t>(count));
  for (std::size_t i = 0; i < count; i++) sum.add_all(*circuit.justice(i));
  const auto named = *circuit.symbols();
  sum.add(static_cast<std::uint32_t>(named.size()));
  for (std::size_t node : named) {
    sum.add(static_cast<std::uint32_t>(node));
    sum.add_all(*circuit.get_symbol(node));
  }
}

void add_simulation(Sum &sum, aig::Simulation &simulation) {
  sum.add_all(*simulation.state());
  Bytes values;
  for (aig::Edge edge; *simulation.has_value(edge); edge = aig::Edge::to(values.size())) values.push_back(*simulation.value(edge));
  sum.add_all(values);
}

void add_unrolling(Sum &sum, aig::Unrolling &unrolling) {
  sum.add_all(*unrolling.initial_clauses());
  const std::size_t steps = *unrolling.steps();
  for (std::size_t step = 0; step <= steps; step++) {
    sum.add_all(*unrolling.step_clauses(step));
    sum.add_all(*unrolling.bads(step));
    sum.add_all(step ? *unrolling.added_inputs(step) : aig::List<std::size_t>());
  }
}

// ---- what is told

void print(std::ostream &out, std::size_t number) { out << number; }
void print(std::ostream &out, aig::Edge edge) { out << edge.literal(); }
void print(std::ostream &out, std::int32_t number) { out << number; }
void print(std::ostream &out, bool answer) { out << (answer ? '1' : '0'); }
void print(std::ostream &out, std::uint8_t byte) { out << "0123456789abcdef"[byte / 16] << "0123456789abcdef"[byte % 16]; }
void print(std::ostream &out, char byte) { print(out, static_cast<std::uint8_t>(byte)); }
void print(std::ostream &out, const aig_node_t &node) { out << node.kind << ':' << node.fanin0 << ':' << node.fanin1; }
void print(std::ostream &out, const aig_latch_t &latch) {
  out << latch.input << ':' << latch.next << ':' << latch.init << ':' << (latch.has_init ? 1 : 0);
}

template <class Items> void print_all(std::ostream &out, const Items &items) {
  const char *before = "";
  if (!items.size()) out << '-';
  for (const auto &item : items) {
    out << before;
    print(out, item);
    if (sizeof item > 1) before = ",";
  }
}

class Script {
  aig::Circuit circuits_[3];
  aig::Simulation simulations_[3];
  aig::Unrolling unrollings_[3];
  std::istringstream words_;
  std::ostringstream told_;
  bool is_odd_ = false;

public:
  // ---- what a line says

  std::size_t number() {
    std::size_t number = 0;
    words_ >> number;
    return number;
  }
  std::uint32_t list() { return static_cast<std::uint32_t>(number()); }
  aig::Edge edge() { return aig::Edge(list()); }
  aig::Circuit &circuit() { return circuits_[number()]; }
  aig::Simulation &simulation() { return simulations_[number()]; }
  aig::Unrolling &unrolling() { return unrollings_[number()]; }
  Bytes bytes() {
    const std::string word = this->word();
    Bytes made;
    for (std::size_t i = 0; i + 1 < word.size(); i += 2) made.push_back(static_cast<std::uint8_t>(std::stoi(word.substr(i, 2), nullptr, 16)));
    return made;
  }
  std::vector<std::size_t> numbers() {
    std::istringstream items(word());
    std::vector<std::size_t> made;
    for (std::size_t item = 0; items >> item; items.ignore()) made.push_back(item);
    return made;
  }
  std::vector<aig::Edge> edges() {
    std::vector<aig::Edge> made;
    for (std::size_t item : numbers()) made.push_back(aig::Edge(static_cast<std::uint32_t>(item)));
    return made;
  }
  bool is_odd() const { return is_odd_; }

  // ---- how a call ended

  void tell(aig::Status status) { told_ << status.code(); }
  void tell(aig::Signal signal) { tell(signal ? aig::Result<aig::Edge>(signal.edge()) : aig::Result<aig::Edge>(signal.status())); }
  template <class T> void tell(aig::Result<T> result) {
    tell(result.status());
    if (!result) return;
    told_ << ' ';
    print(told_, *result);
  }
  template <class T> void tell(aig::Result<aig::List<T>> result) {
    tell(result.status());
    if (!result) return;
    told_ << ' ';
    print_all(told_, *result);
  }
  // Puts what a call made into a handle's place.
  template <class T> void put(T &place, aig::Result<T> made) {
    tell(made.status());
    if (made) place = *std::move(made);
  }
  void tell_step(aig::Result<aig::List<std::uint8_t>> values, const Bytes &state) {
    tell(values.status());
    if (!values) return;
    told_ << ' ';
    print_all(told_, state);
    told_ << ' ';
    print_all(told_, *values);
  }

  // ---- lines

  std::string run(const std::string &line);

private:
  std::string word() {
    std::string word;
    words_ >> word;
    return word == "-" ? "" : word;
  }
  std::uint32_t sum() {
    Sum made;
    for (std::uint32_t i = 0; i < 3; i++) {
      made.add(i);
      if (circuits_[i].holds()) add_circuit(made, circuits_[i]);
    }
    for (std::uint32_t i = 0; i < 3; i++) {
      made.add(i);
      if (simulations_[i].holds()) add_simulation(made, simulations_[i]);
    }
    for (std::uint32_t i = 0; i < 3; i++) {
      made.add(i);
      if (unrollings_[i].holds()) add_unrolling(made, unrollings_[i]);
    }
    return made.value();
  }
};

// Makes a call that tells the gate of two edges, or what an operator on signals gives.
template <aig::Result<aig::Edge> (aig::Circuit::*gate)(aig::Signal, aig::Signal), class Operator>
void join(Script &s, Operator join_signals) {
  aig::Circuit &circuit = s.circuit();
  const aig::Edge a = s.edge(), b = s.edge();
  s.is_odd() ? s.tell(join_signals(circuit.signal(a), circuit.signal(b))) : s.tell((circuit.*gate)(a, b));
}

const std::map<std::string, void (*)(Script &)> CALLS = {
  {"circuit_new", [](Script &s) { s.put(s.circuit(), aig::Circuit::make()); }},
  {"circuit_free", [](Script &s) { s.circuit() = aig::Circuit(), s.tell(aig::Status()); }},
  {"circuit_clone", [](Script &s) { auto &c = s.circuit(), &to = s.circuit(); s.put(to, c.clone()); }},
  {"circuit_from_aiger", [](Script &s) {
     auto &c = s.circuit();
     const Bytes file = s.bytes();
     s.put(c, aig::Circuit::from_aiger(file, s.number()));
   }},
  {"circuit_write_text", [](Script &s) { s.tell(s.circuit().write_text()); }},
  {"circuit_write_binary", [](Script &s) { s.tell(s.circuit().write_binary()); }},
  {"circuit_new_leaf_node", [](Script &s) { s.tell(s.circuit().new_leaf_node()); }},
  {"circuit_new_input", [](Script &s) { s.tell(s.circuit().new_input()); }},
  {"circuit_add_input", [](Script &s) { auto &c = s.circuit(); s.tell(c.add_input(s.number())); }},
  {"circuit_new_latch", [](Script &s) {
     auto &c = s.circuit();
     const aig::Edge next = s.edge();
     s.number() ? s.tell(c.new_latch(next, s.edge())) : s.tell(c.new_latch(next));
   }},
  {"circuit_add_latch", [](Script &s) {
     auto &c = s.circuit();
     const std::size_t node = s.number();
     const aig::Edge next = s.edge();
     s.number() ? s.tell(c.add_latch(node, next, s.edge())) : s.tell(c.add_latch(node, next));
   }},
  {"circuit_set_next", [](Script &s) { auto &c = s.circuit(); const auto i = s.number(); s.tell(c.set_next(i, s.edge())); }},
  {"circuit_set_init", [](Script &s) {
     auto &c = s.circuit();
     const std::size_t i = s.number();
     s.number() ? s.tell(c.set_init(i, s.edge())) : s.tell(c.clear_init(i));
   }},
  {"circuit_trivial_new_and_node", [](Script &s) { auto &c = s.circuit(); const auto a = s.edge(); s.tell(c.trivial_new_and_node(a, s.edge())); }},
  {"circuit_new_and_node", [](Script &s) { join<&aig::Circuit::new_and_node>(s, [](aig::Signal a, aig::Signal b) { return a & b; }); }},
  {"circuit_trivial_new_or_node", [](Script &s) { auto &c = s.circuit(); const auto a = s.edge(); s.tell(c.trivial_new_or_node(a, s.edge())); }},
  {"circuit_new_or_node", [](Script &s) { join<&aig::Circuit::new_or_node>(s, [](aig::Signal a, aig::Signal b) { return a | b; }); }},
  {"circuit_new_imply_node", [](Script &s) {
     join<&aig::Circuit::new_imply_node>(s, [](aig::Signal a, aig::Signal b) { return implies(a, b); });
   }},
  {"circuit_new_eq_node", [](Script &s) { join<&aig::Circuit::new_eq_node>(s, [](aig::Signal a, aig::Signal b) { return ~(a ^ b); }); }},
  {"circuit_trivial_new_ands_node", [](Script &s) { auto &c = s.circuit(); s.tell(c.trivial_new_ands_node(s.edges())); }},
  {"circuit_new_ands_node", [](Script &s) { auto &c = s.circuit(); s.tell(c.new_ands_node(s.edges())); }},
  {"circuit_trivial_new_ors_node", [](Script &s) { auto &c = s.circuit(); s.tell(c.trivial_new_ors_node(s.edges())); }},
  {"circuit_new_ors_node", [](Script &s) { auto &c = s.circuit(); s.tell(c.new_ors_node(s.edges())); }},
  {"circuit_set_node", [](Script &s) {
     auto &c = s.circuit();
     const std::size_t node = s.number();
     const aig::Edge a = s.edge();
     s.tell(c.set_node(node, a, s.edge()));
   }},
  {"circuit_push_edge", [](Script &s) { auto &c = s.circuit(); const auto list = s.list(); s.tell(c.push_edge(list, s.edge())); }},
  {"circuit_set_edge", [](Script &s) {
     auto &c = s.circuit();
     const std::uint32_t list = s.list();
     const std::size_t i = s.number();
     s.tell(c.set_edge(list, i, s.edge()));
   }},
  {"circuit_set_edges", [](Script &s) { auto &c = s.circuit(); const auto list = s.list(); s.tell(c.set_edges(list, s.edges())); }},
  {"circuit_clear_edges", [](Script &s) { auto &c = s.circuit(); s.tell(c.clear_edges(s.list())); }},
  {"circuit_push_justice", [](Script &s) { auto &c = s.circuit(); s.tell(c.push_justice(s.edges())); }},
  {"circuit_clear_justice", [](Script &s) { s.tell(s.circuit().clear_justice()); }},
  {"circuit_get_symbol", [](Script &s) { auto &c = s.circuit(); s.tell(c.get_symbol(s.number())); }},
  {"circuit_set_symbol", [](Script &s) {
     auto &c = s.circuit();
     const std::size_t node = s.number();
     const Bytes name = s.bytes();
     s.tell(c.set_symbol(node, std::string(name.begin(), name.end())));
   }},
  {"circuit_num_nodes", [](Script &s) { s.tell(s.circuit().num_nodes()); }},
  {"circuit_nodes", [](Script &s) { s.tell(s.circuit().nodes()); }},
  {"circuit_inputs", [](Script &s) { s.tell(s.circuit().inputs()); }},
  {"circuit_latchs", [](Script &s) { s.tell(s.circuit().latchs()); }},
  {"circuit_edges", [](Script &s) { auto &c = s.circuit(); s.tell(c.edges(s.list())); }},
  {"circuit_num_justice", [](Script &s) { s.tell(s.circuit().num_justice()); }},
  {"circuit_justice", [](Script &s) { auto &c = s.circuit(); s.tell(c.justice(s.number())); }},
  {"circuit_ands", [](Script &s) { s.tell(s.circuit().ands()); }},
  {"circuit_symbols", [](Script &s) { s.tell(s.circuit().symbols()); }},
  {"circuit_has_node", [](Script &s) { auto &c = s.circuit(); s.tell(c.has_node(s.number())); }},
  {"circuit_has_edge", [](Script &s) { auto &c = s.circuit(); s.tell(c.has_edge(s.edge())); }},
  {"circuit_is_free_leaf", [](Script &s) { auto &c = s.circuit(); s.tell(c.is_free_leaf(s.number())); }},
  {"circuit_is_closed", [](Script &s) { s.tell(s.circuit().is_closed()); }},
  {"circuit_fits_lits", [](Script &s) { s.tell(s.circuit().fits_lits()); }},
  {"circuit_admits", [](Script &s) {
     auto &c = s.circuit();
     const std::size_t node = s.number();
     const aig::Edge a = s.edge();
     s.tell(c.admits(node, a, s.edge()));
   }},
  {"circuit_begins_with", [](Script &s) { auto &c = s.circuit(), &from = s.circuit(); s.tell(c.begins_with(from)); }},
  {"circuit_fanin_logic_cone", [](Script &s) { auto &c = s.circuit(); s.tell(c.fanin_logic_cone(s.edges())); }},
  {"circuit_coi", [](Script &s) { auto &c = s.circuit(); s.tell(c.coi(s.numbers())); }},
  {"circuit_coi_refine", [](Script &s) { s.tell(s.circuit().coi_refine()); }},
  {"circuit_merge", [](Script &s) { auto &c = s.circuit(), &other = s.circuit(); s.tell(c.merge(other)); }},
  {"circuit_aig_move", [](Script &s) { s.tell(s.circuit().aig_move()); }},
  {"circuit_compress_property", [](Script &s) { s.tell(s.circuit().compress_property()); }},
  {"circuit_gate_init_to_constraint", [](Script &s) { s.tell(s.circuit().gate_init_to_constraint()); }},
  {"circuit_reencode", [](Script &s) { s.tell(s.circuit().reencode()); }},
  {"circuit_unroll", [](Script &s) { auto &c = s.circuit(), &from = s.circuit(); s.tell(c.unroll(from)); }},
  {"circuit_unroll_to", [](Script &s) { auto &c = s.circuit(); s.tell(c.unroll_to(s.number())); }},
  {"circuit_strash", [](Script &s) { s.tell(s.circuit().strash()); }},
  {"circuit_cnf", [](Script &s) { auto &c = s.circuit(); s.tell(c.cnf(s.number())); }},
  {"circuit_ternary_simulate", [](Script &s) {
     auto &c = s.circuit();
     const Bytes inputs = s.bytes();
     s.tell(c.ternary_simulate(inputs, s.bytes()));
   }},
  {"circuit_simulate", [](Script &s) {
     auto &c = s.circuit();
     Bytes state = s.bytes();
     auto values = c.simulate(state.data(), state.size(), s.bytes());
     s.tell_step(std::move(values), state);
   }},
  {"simulation_new", [](Script &s) {
     auto &c = s.circuit();
     const Bytes state = s.bytes();
     s.put(s.simulation(), aig::Simulation::make(c, state));
   }},
  {"simulation_free", [](Script &s) { s.simulation() = aig::Simulation(), s.tell(aig::Status()); }},
  {"simulation_clone", [](Script &s) { auto &from = s.simulation(), &to = s.simulation(); s.put(to, from.clone()); }},
  {"simulation_simulate", [](Script &s) { auto &it = s.simulation(); s.tell(it.simulate(s.bytes())); }},
  {"simulation_has_value", [](Script &s) { auto &it = s.simulation(); s.tell(it.has_value(s.edge())); }},
  {"simulation_value", [](Script &s) { auto &it = s.simulation(); s.tell(it.value(s.edge())); }},
  {"simulation_state", [](Script &s) { s.tell(s.simulation().state()); }},
  {"simulation_simulate_all", [](Script &s) {
     auto &it = s.simulation();
     const Bytes inputs = s.bytes();
     const std::size_t steps = s.number();
     s.tell(it.simulate_all(inputs, steps, s.edge()));
   }},
  {"unrolling_new", [](Script &s) { auto &c = s.circuit(); s.put(s.unrolling(), aig::Unrolling::make(c)); }},
  {"unrolling_free", [](Script &s) { s.unrolling() = aig::Unrolling(), s.tell(aig::Status()); }},
  {"unrolling_add_step", [](Script &s) { s.tell(s.unrolling().add_step()); }},
  {"unrolling_steps", [](Script &s) { s.tell(s.unrolling().steps()); }},
  {"unrolling_step_clauses", [](Script &s) { auto &it = s.unrolling(); s.tell(it.step_clauses(s.number())); }},
  {"unrolling_initial_clauses", [](Script &s) { s.tell(s.unrolling().initial_clauses()); }},
  {"unrolling_bads", [](Script &s) { auto &it = s.unrolling(); s.tell(it.bads(s.number())); }},
  {"unrolling_added_inputs", [](Script &s) { auto &it = s.unrolling(); s.tell(it.added_inputs(s.number())); }},
  {"unrolling_check_refuted", [](Script &s) {
     auto &it = s.unrolling();
     const std::size_t step = s.number();
     s.tell(it.check_refuted(step, s.bytes()));
   }},
  {"unrolling_check_inductive", [](Script &s) {
     auto &it = s.unrolling();
     const std::size_t k = s.number();
     s.tell(it.check_inductive(k, s.bytes()));
   }},
};

std::string Script::run(const std::string &line) {
  words_ = std::istringstream(line);
  told_ = std::ostringstream();
  is_odd_ = !is_odd_;
  CALLS.at(word())(*this);
  char after[12];
  std::snprintf(after, sizeof after, " #%08x", sum());
  return told_.str() + after;
}

} // namespace

int main() {
  Script script;
  for (std::string line; std::getline(std::cin, line);) {
    if (line == "script") {
      script = Script();
      std::cout << "script 0\n";
    } else {
      std::cout << script.run(line) << '\n';
    }
  }
}
