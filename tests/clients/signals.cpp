// Checks what scripts of calls don't reach of aig.hpp: signals that failed or are of two circuits, circuits that are moved or used beside
// themselves, and lists. All values are worked out by hand.
#include "aig.hpp"

#include <cstdio>
#include <cstring>
#include <vector>

namespace {

int failed = 0;

void check(bool holds, int line) {
  if (!holds) std::printf("signals.cpp:%d doesn't hold\n", line), failed = 1;
}
#define CHECK(...) check(static_cast<bool>(__VA_ARGS__), __LINE__)

aig::Circuit made() {
  aig::Result<aig::Circuit> circuit = aig::Circuit::make();
  CHECK(circuit);
  return *std::move(circuit);
}

void failed_signals() {
  aig::Circuit circuit = made(), other = made();
  const aig::Signal x = circuit.signal(circuit.new_input()), y = other.signal(other.new_input());
  const aig::Signal missing = circuit.signal(aig::Edge(98)), both = x & y, late = (x & missing) | y;
  CHECK(both.status() == AIG_RANGE && !both);
  CHECK(late.status() == AIG_RANGE && (~late ^ x).status() == AIG_RANGE && choose(x, late, x).status() == AIG_RANGE);
  CHECK(*circuit.num_nodes() == 2 && *other.num_nodes() == 2);
  CHECK(circuit.push_edge(AIG_OUTPUTS, y) == AIG_RANGE && circuit.push_edge(AIG_OUTPUTS, late) == AIG_RANGE);
  CHECK(circuit.new_and_node(x, y).status() == AIG_RANGE && circuit.new_latch(x, y).status() == AIG_RANGE);
  CHECK(circuit.set_next(0, y) == AIG_RANGE && circuit.edges(AIG_OUTPUTS)->empty());
  CHECK(circuit.signal(circuit.new_and_node(x, missing)).status() == AIG_RANGE);
  CHECK((aig::Signal(aig::Edge(2)) & aig::Edge(4)).status() == AIG_EMPTY);
  CHECK(!std::strcmp(aig::Status(AIG_LITERAL_OUTPUTS).message().c_str(), "bad literal in outputs"));
}

void operators() {
  aig::Circuit circuit = made();
  const aig::Signal x = circuit.signal(circuit.new_input()), y = circuit.signal(circuit.new_input());
  CHECK((x & y).edge() == aig::Edge::to(3) && (x | ~x).edge() == aig::Edge::constant(true));
  CHECK((x & circuit.constant(true)).edge() == x.edge() && (aig::Edge(0) | x).edge() == x.edge());
  // The equality of two inputs takes nodes 4, 5 and 6, and is the inverse of 6.
  CHECK((x ^ y).edge() == aig::Edge::to(6) && equals(x, x).edge() == aig::Edge::constant(true));
  CHECK(implies(x, y).edge() == aig::Edge::to(7, true) && (~implies(x, y)).edge() != aig::Edge::to(7));
  CHECK(choose(circuit.constant(true), x, y).edge() == x.edge() && choose(circuit.constant(false), x, y).edge() == y.edge());
}

void moved() {
  aig::Circuit circuit = made();
  const aig::Signal x = circuit.signal(circuit.new_input());
  aig::Circuit now = std::move(circuit);
  CHECK(!circuit.holds() && circuit.new_input().status() == AIG_EMPTY && circuit.unroll_to(1) == AIG_EMPTY);
  const aig::Signal y = now.signal(now.new_input());
  CHECK(now.push_edge(AIG_OUTPUTS, x & y) && *now.num_nodes() == 4);
  circuit = *now.clone();
  CHECK(circuit.merge(circuit) && *circuit.num_nodes() == 7 && circuit.edges(AIG_OUTPUTS)->size() == 2);
  CHECK(*circuit.begins_with(circuit) && *circuit.begins_with(now) && !*now.begins_with(circuit));
  CHECK(now.unroll(now) && *now.num_nodes() == 7);
  now = aig::Circuit();
  CHECK(now.merge(circuit) == AIG_EMPTY && circuit.merge(now) == AIG_EMPTY && circuit.begins_with(now).status() == AIG_EMPTY);
  CHECK(aig::Simulation::make(now, {}).status() == AIG_EMPTY && aig::Simulation().simulate({}) == AIG_EMPTY);
}

void lists() {
  aig::Circuit circuit = made();
  std::vector<std::size_t> numbers;
  for (int i = 0; i < 3000; i++) numbers.push_back(*circuit.new_input());
  aig::List<std::size_t> inputs = *circuit.inputs();
  CHECK(inputs.size() == 3000 && inputs[0] == 1 && inputs[2999] == 3000 && !std::memcmp(inputs.data(), numbers.data(), 3000 * sizeof numbers[0]));
  aig::List<std::size_t> others = std::move(inputs);
  CHECK(others.size() == 3000 && inputs.empty());
  CHECK(circuit.set_symbol(1, "") && circuit.get_symbol(1)->empty() && circuit.get_symbol(2).status() == AIG_NO_NAME);
  CHECK(*circuit.new_ands_node({}) == aig::Edge::constant(true) && *circuit.new_ors_node(aig::List<aig::Edge>()) == aig::Edge::constant(false));
  CHECK(aig::Circuit::from_aiger(aig::View<std::uint8_t>(nullptr, 0), 9).status() == AIG_HEADER && circuit.num_nodes().value_or(0) == 3001);
}

} // namespace

int main() {
  failed_signals();
  operators();
  moved();
  lists();
  if (!failed) std::puts("all hold");
  return failed;
}
