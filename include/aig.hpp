/* Circuits in memory, for C++17: owning types over the calls of aig_circuit.h.
 *
 *     aig::Result<aig::Circuit> made = aig::Circuit::make();
 *     if (!made) return made.status().code();
 *     aig::Circuit &circuit = *made;
 *     aig::Signal x = circuit.signal(circuit.new_input()), y = circuit.signal(circuit.new_input());
 *     if (aig::Status status = circuit.push_edge(AIG_OUTPUTS, (x & ~y) | (x ^ y)); !status) return status.code();
 *
 * Nothing in this header throws, or needs exceptions or run-time type information. A call returns a `Status`, or a `Result` that contains
 * an answer or a status. All memory comes from malloc. If malloc fails, the status is AIG_MEMORY. `assert` checks the requirements on the
 * caller, for example that a `Result` without an answer isn't read.
 *
 * aig_circuit.h describes what each call does, at the call with the same name. A circuit, simulation or unrolling that was moved from, or
 * that was created by the constructor without arguments, holds nothing, and each call on it returns AIG_EMPTY. No member function is const,
 * because two threads must not read the same circuit at the same time. Give a second thread a clone.
 */
#ifndef AIG_HPP
#define AIG_HPP

#include "aig.h"

#include <cassert>
#include <cstddef>
#include <cstdint>
#include <cstdlib>
#include <initializer_list>
#include <new>
#include <string_view>
#include <type_traits>
#include <utility>

namespace aig {

/* The text of a status. */
struct Message {
  char text[128] = {};
  const char *c_str() const { return text; }
};

/* The status of a call, with a number from `aig_status`. It converts to true exactly if the status is AIG_DONE. */
class [[nodiscard]] Status {
  std::uint32_t code_;

public:
  constexpr Status(std::uint32_t code = AIG_DONE) noexcept : code_(code) {}
  constexpr std::uint32_t code() const noexcept { return code_; }
  constexpr explicit operator bool() const noexcept { return code_ == AIG_DONE; }
  friend constexpr bool operator==(Status a, Status b) noexcept { return a.code_ == b.code_; }
  friend constexpr bool operator!=(Status a, Status b) noexcept { return a.code_ != b.code_; }

  /* Returns the meaning of the status as text, in the words that the programs print. */
  Message message() const noexcept {
    Message made;
    std::uint8_t bytes[sizeof made.text - 1];
    std::size_t count = 0;
    if (aig_message(code_, bytes, sizeof bytes, &count) != AIG_DONE) return made;
    for (std::size_t i = 0; i < count; i++) made.text[i] = static_cast<char>(bytes[i]);
    return made;
  }
};

/* An answer, or a status with the reason why there is no answer. */
template <class T> class [[nodiscard]] Result {
  Status status_;
  T value_;

public:
  Result(Status status) noexcept : status_(status), value_() { assert(!status_); }
  Result(T value) noexcept : status_(), value_(std::move(value)) {}
  Status status() const noexcept { return status_; }
  explicit operator bool() const noexcept { return bool(status_); }

  /* Returns the answer, which has to exist. If it doesn't exist and assertions are disabled, the value has no meaning. The answer is
   * moved out of a temporary result, so that it can be used in a loop such as `for (auto node : *circuit.nodes())`. */
  T &operator*() & noexcept {
    assert(status_);
    return value_;
  }
  T operator*() && noexcept {
    assert(status_);
    return std::move(value_);
  }
  T *operator->() noexcept { return &**this; }

  /* Returns the answer, or `other` if there is no answer. */
  T value_or(T other) && noexcept { return status_ ? std::move(value_) : std::move(other); }
};

/* A list that owns the memory of its items. It can be moved, but not copied. */
template <class T> class List {
  static_assert(std::is_trivially_copyable<T>::value, "a list's items are plain values");
  T *items_ = nullptr;
  std::size_t size_ = 0;

public:
  List() noexcept = default;
  List(List &&other) noexcept : items_(std::exchange(other.items_, nullptr)), size_(std::exchange(other.size_, 0)) {}
  List &operator=(List &&other) noexcept {
    std::swap(items_, other.items_);
    std::swap(size_, other.size_);
    return *this;
  }
  ~List() { std::free(items_); }

  const T *data() const noexcept { return items_; }
  std::size_t size() const noexcept { return size_; }
  bool empty() const noexcept { return size_ == 0; }
  const T *begin() const noexcept { return items_; }
  const T *end() const noexcept { return items_ + size_; }
  const T &operator[](std::size_t i) const noexcept {
    assert(i < size_);
    return items_[i];
  }

  /* Replaces the items by the answer of a call. The call is first made with space for `room` items, and repeated with more space if the
   * answer doesn't fit. */
  template <class Call> Status fill(std::size_t room, Call call) noexcept {
    for (;;) {
      List made;
      room = room ? room : 1;
      if (room > SIZE_MAX / sizeof(T)) return AIG_MEMORY;
      made.items_ = static_cast<T *>(std::malloc(room * sizeof(T)));
      if (!made.items_) return AIG_MEMORY;
      Status status = call(made.items_, room, &made.size_);
      if (status) *this = std::move(made);
      if (status != AIG_SMALL) return status;
      room = made.size_;
    }
  }
};

/* The items that a call reads, from an array, a list, or any other object with `data` and `size`. A view may be empty, and then its
 * pointer may be null. */
template <class T> class View {
  const T *items_;
  std::size_t size_;
  alignas(T) static constexpr unsigned char NONE[sizeof(T)] = {};

public:
  View(const T *items, std::size_t size) noexcept : items_(items), size_(size) { assert(items || !size); }
  View(std::initializer_list<T> items) noexcept : View(items.begin(), items.size()) {}
  template <class Items, class = decltype(std::declval<const Items &>().data())>
  View(const Items &items) noexcept : View(reinterpret_cast<const T *>(items.data()), items.size()) {
    using Item = std::remove_cv_t<std::remove_pointer_t<decltype(items.data())>>;
    static_assert(std::is_same<Item, T>::value || sizeof(Item) * sizeof(T) == 1, "items of another type");
  }

  /* Returns a pointer to the first item. If there are no items, returns a pointer that isn't null and isn't read, because the calls don't
   * accept null. */
  const T *data() const noexcept { return size_ ? items_ : reinterpret_cast<const T *>(NONE); }
  std::size_t size() const noexcept { return size_; }
};

/* An edge, that is, the number of a node and whether it is inverted, stored as a literal of the AIGER format. */
class Edge {
  std::uint32_t literal_ = 0;

public:
  constexpr Edge() noexcept = default;
  constexpr explicit Edge(std::uint32_t literal) noexcept : literal_(literal) {}

  /* Returns the edge to a node, whose number has to be below 2^31. */
  static constexpr Edge to(std::size_t node, bool inverted = false) noexcept {
    return Edge(static_cast<std::uint32_t>(2 * node + inverted));
  }
  /* Returns the edge with a constant value. */
  static constexpr Edge constant(bool value) noexcept { return Edge(value); }

  constexpr std::uint32_t literal() const noexcept { return literal_; }
  constexpr std::size_t node() const noexcept { return literal_ / 2; }
  constexpr bool is_inverted() const noexcept { return literal_ % 2; }
  constexpr Edge operator~() const noexcept { return Edge(literal_ ^ 1); }
  friend constexpr bool operator==(Edge a, Edge b) noexcept { return a.literal_ == b.literal_; }
  friend constexpr bool operator!=(Edge a, Edge b) noexcept { return a.literal_ != b.literal_; }
};

// The calls read and write edges as literals.
static_assert(sizeof(Edge) == sizeof(std::uint32_t) && std::is_standard_layout<Edge>::value, "an edge is its literal");

class Circuit;

/* An edge of a circuit, with operators that add gates to the circuit, or the status of the first operation that failed. A signal that is
 * computed from a signal without an edge has the status of this signal, so it is enough to test the last one. A signal must only be used
 * while its circuit exists. The circuit may be moved in the meantime. An edge converts to a signal that doesn't belong to a circuit, so
 * that it can be an argument of a call, or an operand together with a signal of a circuit. */
class Signal {
  friend class Circuit;
  aig_circuit_t *circuit_ = nullptr;
  Edge edge_;
  Status status_;

  Signal(aig_circuit_t *circuit, Edge edge) noexcept : circuit_(circuit), edge_(edge) {}
  Signal(Status status) noexcept : status_(status) { assert(!status); }
  using Gate = std::uint32_t(aig_circuit_t *, std::uint32_t, std::uint32_t, std::uint32_t *);

  static Signal joined(Gate *gate, Signal a, Signal b) noexcept {
    if (!a.status_) return a;
    if (!b.status_) return b;
    aig_circuit_t *circuit = a.circuit_ ? a.circuit_ : b.circuit_;
    if (!circuit) return Status(AIG_EMPTY);
    if (b.circuit_ && b.circuit_ != circuit) return Status(AIG_RANGE);
    std::uint32_t literal = 0;
    Status status = gate(circuit, a.edge_.literal(), b.edge_.literal(), &literal);
    return status ? Signal(circuit, Edge(literal)) : Signal(status);
  }

public:
  Signal(Edge edge) noexcept : edge_(edge) {}
  Status status() const noexcept { return status_; }
  explicit operator bool() const noexcept { return bool(status_); }

  /* Returns the edge, which has to exist. */
  Edge edge() const noexcept {
    assert(status_);
    return edge_;
  }

  Signal operator~() const noexcept {
    Signal made = *this;
    made.edge_ = ~edge_;
    return made;
  }
  /* Returns the and of two signals, by `new_and_node`. */
  friend Signal operator&(Signal a, Signal b) noexcept { return joined(aig_circuit_new_and_node, a, b); }
  /* Returns the or of two signals, by `new_or_node`. */
  friend Signal operator|(Signal a, Signal b) noexcept { return joined(aig_circuit_new_or_node, a, b); }
  /* Returns the exclusive or of two signals: the inverse of `equals`. */
  friend Signal operator^(Signal a, Signal b) noexcept { return ~equals(a, b); }
  /* Returns a signal that is true if and only if two signals are equal, by `new_eq_node`. */
  friend Signal equals(Signal a, Signal b) noexcept { return joined(aig_circuit_new_eq_node, a, b); }
  /* Returns a signal that is true if and only if the first signal implies the second, by `new_imply_node`. */
  friend Signal implies(Signal a, Signal b) noexcept { return joined(aig_circuit_new_imply_node, a, b); }
  /* Returns a signal that has the value of `one` if `condition` is true, and the value of `other` otherwise. */
  friend Signal choose(Signal condition, Signal one, Signal other) noexcept {
    return (condition & one) | (~condition & other);
  }
};

/* The owner of a handle for C, whose address never changes. */
template <class Handle, void (*release)(Handle *)> class Held {
  Handle *at_ = nullptr;

protected:
  /* The number of items for which an answer has space initially. */
  static constexpr std::size_t ROOM = 1024;

  /* Makes a call that puts something into a new handle, and replaces the held handle by it. */
  template <class Call> Status put(Call call) noexcept {
    Held made;
    made.at_ = new (std::nothrow) Handle AIG_NONE;
    if (!made.at_) return AIG_MEMORY;
    Status status = call(made.at_);
    if (status) std::swap(at_, made.at_);
    return status;
  }
  /* Makes a call on the held handle. */
  template <class Call, class... Words> Status perform(Call call, Words... words) noexcept {
    return at_ ? Status(call(at_, words...)) : Status(AIG_EMPTY);
  }
  /* Makes a call on the held handle, and returns its result. */
  template <class T, class Call, class... Words> Result<T> told(Call call, Words... words) noexcept {
    T value{};
    Status status = perform(call, words..., &value);
    return status ? Result<T>(value) : Result<T>(status);
  }
  /* Makes a call that returns a list, with space for `room` items initially. */
  template <class T, class Call, class... Words> Result<List<T>> listed(std::size_t room, Call call, Words... words) noexcept {
    List<T> made;
    Status status = made.fill(room, [&](auto... out) { return perform(call, words..., out...); });
    return status ? Result<List<T>>(std::move(made)) : Result<List<T>>(status);
  }
  /* Makes a call that returns a list of edges. */
  template <class Call, class... Words> Result<List<Edge>> edges_of(Call call, Words... words) noexcept {
    List<Edge> made;
    Status status = made.fill(ROOM, [&](Edge *out, auto... counts) {
      return perform(call, words..., reinterpret_cast<std::uint32_t *>(out), counts...);
    });
    return status ? Result<List<Edge>>(std::move(made)) : Result<List<Edge>>(status);
  }

public:
  Held() noexcept = default;
  Held(Held &&other) noexcept : at_(std::exchange(other.at_, nullptr)) {}
  Held &operator=(Held &&other) noexcept {
    Held old(std::move(*this));
    at_ = std::exchange(other.at_, nullptr);
    return *this;
  }
  ~Held() {
    if (at_) release(at_);
    delete at_;
  }

  /* Returns whether the object holds something. */
  bool holds() const noexcept { return at_ != nullptr; }
  /* Returns the handle for calls of aig_circuit.h, or null if the object holds nothing. These calls must not free the handle. */
  Handle *handle() const noexcept { return at_; }
};

/* A circuit. It can be moved, and `clone` copies it. */
class Circuit : public Held<aig_circuit_t, aig_circuit_free> {
  /* Returns the status with which a call has to refuse a signal, or AIG_DONE. The call itself tests whether the node of the signal
   * exists. */
  Status of(Signal signal) const noexcept {
    if (!signal.status_) return signal.status_;
    const bool is_foreign = signal.circuit_ && signal.circuit_ != handle() && handle();
    return is_foreign ? Status(AIG_RANGE) : Status();
  }
  static std::uint32_t literal(Signal signal) noexcept { return signal.edge_.literal(); }

  /* Makes a call that takes two edges and returns an edge. */
  Result<Edge> gate(Signal::Gate *call, Signal a, Signal b) noexcept {
    if (Status status = of(a); !status) return status;
    if (Status status = of(b); !status) return status;
    return edge(told<std::uint32_t>(call, literal(a), literal(b)));
  }
  /* Makes a call that takes several edges and returns an edge. */
  template <class Call> Result<Edge> gate(Call call, View<Edge> edges) noexcept {
    return edge(told<std::uint32_t>(call, literals(edges), edges.size()));
  }
  static Result<Edge> edge(Result<std::uint32_t> literal) noexcept {
    return literal ? Result<Edge>(Edge(*literal)) : Result<Edge>(literal.status());
  }
  static const std::uint32_t *literals(View<Edge> edges) noexcept { return reinterpret_cast<const std::uint32_t *>(edges.data()); }
  /* Makes a call that returns bytes, and returns them as characters. */
  template <class Call, class... Words> Result<List<char>> text_of(Call call, Words... words) noexcept {
    List<char> made;
    Status status = made.fill(ROOM, [&](char *out, auto... counts) {
      return perform(call, words..., reinterpret_cast<std::uint8_t *>(out), counts...);
    });
    return status ? Result<List<char>>(std::move(made)) : Result<List<char>>(status);
  }

public:
  /* ---- handles and files */

  /* Returns a new circuit that has only node 0. */
  static Result<Circuit> make() noexcept {
    Circuit made;
    Status status = made.put(aig_circuit_new);
    return status ? Result<Circuit>(std::move(made)) : Result<Circuit>(status);
  }
  /* Returns a copy. */
  Result<Circuit> clone() noexcept {
    Circuit made;
    Status status = made.put([this](aig_circuit_t *to) { return perform(aig_circuit_clone, to).code(); });
    return status ? Result<Circuit>(std::move(made)) : Result<Circuit>(status);
  }
  /* Returns the circuit of a file, text or binary, with at most `limit` variables. `limit` is from 1 to 2^31. */
  static Result<Circuit> from_aiger(View<std::uint8_t> file, std::size_t limit) noexcept {
    Circuit made;
    Status status = made.put([=](aig_circuit_t *to) { return aig_circuit_from_aiger(to, file.data(), file.size(), limit); });
    return status ? Result<Circuit>(std::move(made)) : Result<Circuit>(status);
  }
  /* Returns the text form. */
  Result<List<char>> write_text() noexcept { return text_of(aig_circuit_write_text); }
  /* Returns the binary form. */
  Result<List<char>> write_binary() noexcept { return text_of(aig_circuit_write_binary); }

  /* ---- signals */

  /* Returns an edge of this circuit as a signal, which has operators. */
  Signal signal(Edge edge) noexcept { return Signal(handle(), edge); }
  /* Returns the edge that a call returned as a signal, or the status of the call. */
  Signal signal(Result<Edge> edge) noexcept { return edge ? signal(*edge) : Signal(edge.status()); }
  /* Returns the edge to the node that a call returned as a signal, or the status of the call. */
  Signal signal(Result<std::size_t> node) noexcept { return node ? signal(Edge::to(*node)) : Signal(node.status()); }
  /* Returns a constant. */
  Signal constant(bool value) noexcept { return signal(Edge::constant(value)); }

  /* ---- leaves and latches */

  /* Adds a free leaf, and returns its number. */
  Result<std::size_t> new_leaf_node() noexcept { return told<std::size_t>(aig_circuit_new_leaf_node); }
  /* Adds a leaf as the last input, and returns its number. */
  Result<std::size_t> new_input() noexcept { return told<std::size_t>(aig_circuit_new_input); }
  /* Adds a free leaf of the circuit to the inputs, as the last input. */
  Status add_input(std::size_t node) noexcept { return perform(aig_circuit_add_input, node); }
  /* Adds a leaf and a latch with this leaf, which has no initial edge, and returns the number of the leaf. */
  Result<std::size_t> new_latch(Signal next) noexcept { return latch(next, false, Edge()); }
  /* Adds a leaf and a latch with this leaf, which has an initial edge, and returns the number of the leaf. */
  Result<std::size_t> new_latch(Signal next, Signal init) noexcept { return latch(next, true, init); }
  /* Adds a latch without an initial edge, whose leaf is a free leaf of the circuit. */
  Status add_latch(std::size_t node, Signal next) noexcept { return latch_at(node, next, false, Edge()); }
  /* Adds a latch with an initial edge, whose leaf is a free leaf of the circuit. */
  Status add_latch(std::size_t node, Signal next, Signal init) noexcept { return latch_at(node, next, true, init); }
  /* Replaces the next edge of latch `i`, counted from 0. */
  Status set_next(std::size_t i, Signal next) noexcept {
    Status status = of(next);
    return status ? perform(aig_circuit_set_next, i, literal(next)) : status;
  }
  /* Replaces the initial edge of latch `i`, counted from 0. */
  Status set_init(std::size_t i, Signal init) noexcept {
    Status status = of(init);
    return status ? perform(aig_circuit_set_init, i, true, literal(init)) : status;
  }
  /* Removes the initial edge of latch `i`, counted from 0. */
  Status clear_init(std::size_t i) noexcept { return perform(aig_circuit_set_init, i, false, 0u); }

  /* ---- gates */

  /* Adds a gate for the and of two edges. */
  Result<Edge> trivial_new_and_node(Signal a, Signal b) noexcept { return gate(aig_circuit_trivial_new_and_node, a, b); }
  /* Returns the and of two edges. If one edge is constant, or both have the same node, no gate is added. */
  Result<Edge> new_and_node(Signal a, Signal b) noexcept { return gate(aig_circuit_new_and_node, a, b); }
  /* Adds a gate for the and of the inverses of two edges, and returns the inverse of this gate, which is the or of the two edges. */
  Result<Edge> trivial_new_or_node(Signal a, Signal b) noexcept { return gate(aig_circuit_trivial_new_or_node, a, b); }
  /* Returns the or of two edges, which is the inverse of `new_and_node` of their inverses. */
  Result<Edge> new_or_node(Signal a, Signal b) noexcept { return gate(aig_circuit_new_or_node, a, b); }
  /* Returns an edge that is true if and only if the first edge implies the second. */
  Result<Edge> new_imply_node(Signal a, Signal b) noexcept { return gate(aig_circuit_new_imply_node, a, b); }
  /* Returns an edge that is true if and only if two edges are equal. */
  Result<Edge> new_eq_node(Signal a, Signal b) noexcept { return gate(aig_circuit_new_eq_node, a, b); }
  /* Returns the and of edges, combined from left to right, with a gate for each edge after the first. If there are no edges, the result
   * is true. */
  Result<Edge> trivial_new_ands_node(View<Edge> edges) noexcept { return gate(aig_circuit_trivial_new_ands_node, edges); }
  /* Returns the and of edges, combined from left to right by `new_and_node`. If there are no edges, the result is true. */
  Result<Edge> new_ands_node(View<Edge> edges) noexcept { return gate(aig_circuit_new_ands_node, edges); }
  /* Returns the or of edges, which is the inverse of `trivial_new_ands_node` of their inverses. If there are no edges, the result is
   * false. */
  Result<Edge> trivial_new_ors_node(View<Edge> edges) noexcept { return gate(aig_circuit_trivial_new_ors_node, edges); }
  /* Returns the or of edges, which is the inverse of `new_ands_node` of their inverses. If there are no edges, the result is false. */
  Result<Edge> new_ors_node(View<Edge> edges) noexcept { return gate(aig_circuit_new_ors_node, edges); }
  /* Replaces the operands of a gate. */
  Status set_node(std::size_t node, Signal a, Signal b) noexcept {
    if (Status status = of(a); !status) return status;
    if (Status status = of(b); !status) return status;
    return perform(aig_circuit_set_node, node, literal(a), literal(b));
  }

  /* ---- properties: `list` is one of AIG_OUTPUTS, AIG_BADS, AIG_CONSTRAINTS and AIG_FAIRNESS */

  /* Appends an edge to a list. */
  Status push_edge(std::uint32_t list, Signal edge) noexcept {
    Status status = of(edge);
    return status ? perform(aig_circuit_push_edge, list, literal(edge)) : status;
  }
  /* Replaces entry `i` of a list, counted from 0. */
  Status set_edge(std::uint32_t list, std::size_t i, Signal edge) noexcept {
    Status status = of(edge);
    return status ? perform(aig_circuit_set_edge, list, i, literal(edge)) : status;
  }
  /* Replaces all entries of a list. */
  Status set_edges(std::uint32_t list, View<Edge> edges) noexcept {
    return perform(aig_circuit_set_edges, list, literals(edges), edges.size());
  }
  /* Empties a list. */
  Status clear_edges(std::uint32_t list) noexcept { return perform(aig_circuit_clear_edges, list); }
  /* Appends a justice property. */
  Status push_justice(View<Edge> edges) noexcept { return perform(aig_circuit_push_justice, literals(edges), edges.size()); }
  /* Drops all justice properties. */
  Status clear_justice() noexcept { return perform(aig_circuit_clear_justice); }

  /* ---- names */

  /* Returns the name of a node, in UTF-8. The status is AIG_NO_NAME if the node has no name. */
  Result<List<char>> get_symbol(std::size_t node) noexcept { return text_of(aig_circuit_get_symbol, node); }
  /* Sets the name of a node, in UTF-8. */
  Status set_symbol(std::size_t node, std::string_view name) noexcept {
    View<std::uint8_t> bytes(name);
    return perform(aig_circuit_set_symbol, node, bytes.data(), bytes.size());
  }

  /* ---- what a circuit has */

  /* Returns the number of nodes, including node 0. */
  Result<std::size_t> num_nodes() noexcept { return told<std::size_t>(aig_circuit_num_nodes); }
  /* Returns the nodes, in order. */
  Result<List<aig_node_t>> nodes() noexcept {
    return listed<aig_node_t>(num_nodes().value_or(0), aig_circuit_nodes);
  }
  /* Returns the numbers of the inputs, in order. */
  Result<List<std::size_t>> inputs() noexcept { return listed<std::size_t>(ROOM, aig_circuit_inputs); }
  /* Returns the latches, in order. */
  Result<List<aig_latch_t>> latchs() noexcept { return listed<aig_latch_t>(ROOM, aig_circuit_latchs); }
  /* Returns the entries of a list, in order. */
  Result<List<Edge>> edges(std::uint32_t list) noexcept { return edges_of(aig_circuit_edges, list); }
  /* Returns the number of justice properties. */
  Result<std::size_t> num_justice() noexcept { return told<std::size_t>(aig_circuit_num_justice); }
  /* Returns the edges of justice property `i`, counted from 0. */
  Result<List<Edge>> justice(std::size_t i) noexcept { return edges_of(aig_circuit_justice, i); }
  /* Returns the numbers of the gates, in increasing order. */
  Result<List<std::size_t>> ands() noexcept { return listed<std::size_t>(ROOM, aig_circuit_ands); }
  /* Returns the numbers of the nodes that have names, in increasing order. */
  Result<List<std::size_t>> symbols() noexcept { return listed<std::size_t>(ROOM, aig_circuit_symbols); }
  /* Returns whether a node with this number exists. */
  Result<bool> has_node(std::size_t node) noexcept { return told<bool>(aig_circuit_has_node, node); }
  /* Returns whether the node of an edge exists. */
  Result<bool> has_edge(Edge edge) noexcept { return told<bool>(aig_circuit_has_edge, edge.literal()); }
  /* Returns whether a node exists and is a free leaf. */
  Result<bool> is_free_leaf(std::size_t node) noexcept { return told<bool>(aig_circuit_is_free_leaf, node); }
  /* Returns whether the circuit has no free leaves. */
  Result<bool> is_closed() noexcept { return told<bool>(aig_circuit_is_closed); }
  /* Returns whether the circuit has at most 2^31 nodes. */
  Result<bool> fits_lits() noexcept { return told<bool>(aig_circuit_fits_lits); }
  /* Returns whether `set_node` accepts these arguments. */
  Result<bool> admits(std::size_t node, Edge a, Edge b) noexcept {
    return told<bool>(aig_circuit_admits, node, a.literal(), b.literal());
  }
  /* Returns whether the first nodes are those of another circuit, and both have latches with the same leaves in the same order. */
  Result<bool> begins_with(Circuit &from) noexcept {
    if (!from.holds()) return Status(AIG_EMPTY);
    return &from == this ? Result<bool>(true) : told<bool>(aig_circuit_begins_with, from.handle());
  }

  /* ---- cones: each call returns for each node whether it is in the cone */

  /* Returns the nodes of the given edges, and all nodes that can be reached from them along operands. */
  Result<List<bool>> fanin_logic_cone(View<Edge> edges) noexcept {
    return listed<bool>(num_nodes().value_or(0), aig_circuit_fanin_logic_cone, literals(edges), edges.size());
  }
  /* Returns node 0, the given nodes, and all nodes that can be reached from them along operands and next edges. */
  Result<List<bool>> coi(View<std::size_t> roots) noexcept {
    return listed<bool>(num_nodes().value_or(0), aig_circuit_coi, roots.data(), roots.size());
  }

  /* ---- transforms: each call replaces the circuit by another one */

  /* Replaces the circuit by its cone of influence. */
  Status coi_refine() noexcept { return perform(aig_circuit_coi_refine); }
  /* Appends the nodes of another circuit, and the entries of all its lists. */
  Status merge(Circuit &other) noexcept { return with(other, aig_circuit_merge); }
  /* Moves the constraints into the first bad edge and the first output. */
  Status aig_move() noexcept { return perform(aig_circuit_aig_move); }
  /* Replaces the bad edges by one bad edge, which is their or. */
  Status compress_property() noexcept { return perform(aig_circuit_compress_property); }
  /* Replaces initial edges that aren't constant by constraints. */
  Status gate_init_to_constraint() noexcept { return perform(aig_circuit_gate_init_to_constraint); }
  /* Renumbers the nodes: inputs first, then the leaves of latches, then gates. */
  Status reencode() noexcept { return perform(aig_circuit_reencode); }
  /* Adds one step of another circuit to this circuit, which contains the previous steps. */
  Status unroll(Circuit &from) noexcept { return with(from, aig_circuit_unroll); }
  /* Adds `k` further steps. */
  Status unroll_to(std::size_t k) noexcept { return perform(aig_circuit_unroll_to, k); }
  /* Merges all gates whose trees are equal (structural hashing). */
  Status strash() noexcept { return perform(aig_circuit_strash); }

  /* ---- clauses and values */

  /* Returns the clauses as DIMACS numbers, with a 0 after each clause. */
  Result<List<std::int32_t>> cnf(bool optimize) noexcept { return listed<std::int32_t>(ROOM, aig_circuit_cnf, optimize); }
  /* Returns the value of each node for the given values of inputs and latches. A value is AIG_FALSE, AIG_TRUE or AIG_UNKNOWN. */
  Result<List<std::uint8_t>> ternary_simulate(View<std::uint8_t> inputs, View<std::uint8_t> state) noexcept {
    return listed<std::uint8_t>(num_nodes().value_or(0), aig_circuit_ternary_simulate, inputs.data(), inputs.size(),
                                state.data(), state.size());
  }
  /* Simulates one step from the given state, which has a value for each of `count` latches, and replaces the state by the next state. */
  Result<List<std::uint8_t>> simulate(std::uint8_t *state, std::size_t count, View<std::uint8_t> inputs) noexcept {
    std::uint8_t none = 0;
    std::uint8_t *at = count ? state : &none;
    return listed<std::uint8_t>(num_nodes().value_or(0), aig_circuit_simulate, at, count, inputs.data(), inputs.size());
  }

private:
  Result<std::size_t> latch(Signal next, bool has_init, Signal init) noexcept {
    if (Status status = of(next); !status) return status;
    if (Status status = of(init); !status) return status;
    return told<std::size_t>(aig_circuit_new_latch, literal(next), has_init, literal(init));
  }
  Status latch_at(std::size_t node, Signal next, bool has_init, Signal init) noexcept {
    if (Status status = of(next); !status) return status;
    if (Status status = of(init); !status) return status;
    return perform(aig_circuit_add_latch, node, literal(next), has_init, literal(init));
  }
  /* Makes a call with the handle of another circuit. If it is the same circuit, makes the call with a copy. */
  Status with(Circuit &other, std::uint32_t (*call)(aig_circuit_t *, aig_circuit_t *)) noexcept {
    if (!holds() || !other.holds()) return AIG_EMPTY;
    if (&other != this) return perform(call, other.handle());
    Result<Circuit> copy = clone();
    return copy ? perform(call, copy->handle()) : copy.status();
  }
};

/* A simulation with three values, of a copy of a circuit. It can be moved, and `clone` copies it. */
class Simulation : public Held<aig_simulation_t, aig_simulation_free> {
public:
  /* Returns a simulation of a copy of a circuit. It begins in the given state, which has a value for each latch, in order. */
  static Result<Simulation> make(Circuit &circuit, View<std::uint8_t> state) noexcept {
    if (!circuit.holds()) return Status(AIG_EMPTY);
    Simulation made;
    Status status = made.put([&](aig_simulation_t *to) {
      return aig_simulation_new(circuit.handle(), state.data(), state.size(), to);
    });
    return status ? Result<Simulation>(std::move(made)) : Result<Simulation>(status);
  }
  /* Returns a copy. */
  Result<Simulation> clone() noexcept {
    Simulation made;
    Status status = made.put([this](aig_simulation_t *to) { return perform(aig_simulation_clone, to).code(); });
    return status ? Result<Simulation>(std::move(made)) : Result<Simulation>(status);
  }
  /* Simulates one step with the given inputs, and replaces the state by the next state. */
  Status simulate(View<std::uint8_t> inputs) noexcept {
    return perform(aig_simulation_simulate, inputs.data(), inputs.size());
  }
  /* Returns whether an edge has a value. This is the case if a step was simulated and the node of the edge exists. */
  Result<bool> has_value(Edge edge) noexcept { return told<bool>(aig_simulation_has_value, edge.literal()); }
  /* Returns the value of an edge in the last step. */
  Result<std::uint8_t> value(Edge edge) noexcept { return told<std::uint8_t>(aig_simulation_value, edge.literal()); }
  /* Returns the state in which the next step begins. */
  Result<List<std::uint8_t>> state() noexcept { return listed<std::uint8_t>(ROOM, aig_simulation_state); }
  /* Simulates `steps` steps, and returns the value of an edge in each step. `inputs` contains the values for each step, one step after
   * the other. */
  Result<List<std::uint8_t>> simulate_all(View<std::uint8_t> inputs, std::size_t steps, Edge edge) noexcept {
    const std::size_t room = steps < ROOM ? steps : ROOM;
    return listed<std::uint8_t>(room, aig_simulation_simulate_all, inputs.data(), inputs.size(), steps, edge.literal());
  }
};

/* A copy of a circuit that is unrolled step by step. It can be moved. */
class Unrolling : public Held<aig_unrolling_t, aig_unrolling_free> {
public:
  /* Returns an unrolling of a copy of a circuit, without further steps. */
  static Result<Unrolling> make(Circuit &circuit) noexcept {
    if (!circuit.holds()) return Status(AIG_EMPTY);
    Unrolling made;
    Status status = made.put([&](aig_unrolling_t *to) { return aig_unrolling_new(circuit.handle(), to); });
    return status ? Result<Unrolling>(std::move(made)) : Result<Unrolling>(status);
  }
  /* Adds a step. */
  Status add_step() noexcept { return perform(aig_unrolling_add_step); }
  /* Returns the number of steps that were added. */
  Result<std::size_t> steps() noexcept { return told<std::size_t>(aig_unrolling_steps); }
  /* Returns the clauses of a step as DIMACS numbers, with a 0 after each clause. */
  Result<List<std::int32_t>> step_clauses(std::size_t step) noexcept {
    return listed<std::int32_t>(ROOM, aig_unrolling_step_clauses, step);
  }
  /* Returns the clauses of initial values as DIMACS numbers, with a 0 after each clause. */
  Result<List<std::int32_t>> initial_clauses() noexcept { return listed<std::int32_t>(ROOM, aig_unrolling_initial_clauses); }
  /* Returns the bad edges of a step, in order. */
  Result<List<Edge>> bads(std::size_t step) noexcept { return edges_of(aig_unrolling_bads, step); }
  /* Returns the nodes of the inputs that a step after the first adds, in order. */
  Result<List<std::size_t>> added_inputs(std::size_t step) noexcept {
    return listed<std::size_t>(ROOM, aig_unrolling_added_inputs, step);
  }
  /* Checks a proof that no bad state is reached at a step. */
  Status check_refuted(std::size_t step, View<std::uint8_t> proof) noexcept {
    return perform(aig_unrolling_check_refuted, step, proof.data(), proof.size());
  }
  /* Checks a proof that no bad state is ever reached if none is reached at the steps 0 to `k` (k-induction). */
  Status check_inductive(std::size_t k, View<std::uint8_t> proof) noexcept {
    return perform(aig_unrolling_check_inductive, k, proof.data(), proof.size());
  }
};

} // namespace aig

#endif
