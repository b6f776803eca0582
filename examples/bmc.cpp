// A bounded model checker that believes no solver: bmc FILE [BOUND]
//
// At each step it asks cadical, in this process, for a run of the file's machine to a bad state. Of each answer that there is none it
// has the proof, traced in memory, checked by `aig_check_refuted`; of a solution it prints the witness that `aig_witness` gives, which
// `aig_check_run` then checks once more against the file. Its status is 1 where a bad state is reached, 0 where none is up to the bound,
// and 2 where there is no answer.
//
//     g++ -O2 bmc.cpp $(pkg-config --cflags --libs aig) -lcadical -o bmc
#include "aig.h"

#include <cadical.hpp>
#include <cstdio>
#include <cstdlib>
#include <fstream>
#include <iostream>
#include <iterator>
#include <stdexcept>
#include <string>
#include <vector>

namespace {

const std::uint8_t *at(const std::string &bytes) {
  return reinterpret_cast<const std::uint8_t *>(bytes.data());
}

std::string message(std::uint32_t status) {
  std::uint8_t text[128];
  std::size_t length = 0;
  aig_message(status, text, sizeof text, &length);
  return {text, text + length};
}

void require(std::uint32_t status) {
  if (status != AIG_DONE) throw std::runtime_error(message(status));
}

// The clauses of a step, in memory that is kept from step to step.
struct Query {
  std::vector<std::int32_t> numbers = std::vector<std::int32_t>(1 << 16);
  std::size_t count = 0, variables = 0, clauses_len = 0;

  void ask(const std::string &file, std::uint64_t k) {
    auto status = call(file, k);
    if (status == AIG_SMALL) {
      numbers.resize(count + count / 2);
      status = call(file, k);
    }
    require(status);
  }

private:
  std::uint32_t call(const std::string &file, std::uint64_t k) {
    return aig_query_numbers(at(file), file.size(), k, true, numbers.data(), numbers.size(), &count, &variables, &clauses_len);
  }
};

// A text that C's streams write to.
class Trace {
  char *text_ = nullptr;
  std::size_t size_ = 0;
  std::FILE *stream_ = open_memstream(&text_, &size_);

public:
  Trace() {
    if (!stream_) throw std::bad_alloc();
  }
  Trace(const Trace &) = delete;
  Trace &operator=(const Trace &) = delete;
  ~Trace() {
    if (stream_) std::fclose(stream_);
    std::free(text_);
  }
  std::FILE *stream() { return stream_; }
  std::string text() {
    std::fflush(stream_);
    return {text_, size_};
  }
};

// A solver's answer to one query.
struct Answer {
  bool satisfiable;
  std::string text; // the proof, or the solution
};

std::string solution(CaDiCaL::Solver &solver, std::size_t variables) {
  std::string text = "s SATISFIABLE\nv";
  for (int v = 1; v <= static_cast<int>(variables); v++) text += (solver.val(v) > 0 ? " " : " -") + std::to_string(v);
  return text + " 0\n";
}

Answer solve(const Query &query) {
  Trace trace;
  CaDiCaL::Solver solver;
  solver.set("binary", 0);
  solver.set("quiet", 1);
  solver.trace_proof(trace.stream(), "proof");
  for (std::size_t i = 0; i < query.clauses_len; i++) solver.add(query.numbers[i]);
  solver.reserve(static_cast<int>(query.variables));
  switch (solver.solve()) {
  case 10: return {true, solution(solver, query.variables)};
  case 20: solver.flush_proof_trace(); return {false, trace.text()};
  default: throw std::runtime_error("the solver has no answer");
  }
}

std::string witness(const std::string &file, std::uint64_t k, const std::string &values) {
  std::string text(1 << 12, 0);
  for (;;) {
    std::size_t length = 0;
    auto *out = reinterpret_cast<std::uint8_t *>(&text[0]);
    auto status = aig_witness(at(file), file.size(), k, true, at(values), values.size(), out, text.size(), &length);
    text.resize(status == AIG_DONE || status == AIG_SMALL ? length : 0);
    if (status == AIG_DONE) return text;
    if (status != AIG_SMALL) require(status);
  }
}

// Prints a witness that was checked.
void show(const std::string &file, const std::string &text) {
  std::size_t bad = 0, step = 0;
  require(aig_check_run(at(file), file.size(), at(text), text.size(), &bad, &step));
  std::cout << "b" << bad << " at step " << step << "\n" << text;
}

// Whether a bad state is reached at step k. The solver's word isn't taken for it.
bool is_reached(const std::string &file, std::uint64_t k, Query &query) {
  query.ask(file, k);
  const auto answer = solve(query);
  if (answer.satisfiable) {
    show(file, witness(file, k, answer.text));
    return true;
  }
  require(aig_check_refuted(at(file), file.size(), k, true, at(answer.text), answer.text.size()));
  std::cout << "no bad state at step " << k << std::endl;
  return false;
}

int check(const char *path, std::uint64_t bound) {
  std::ifstream stream(path, std::ios::binary);
  if (!stream) throw std::runtime_error("cannot open");
  const std::string file{std::istreambuf_iterator<char>(stream), {}};
  Query query;
  for (std::uint64_t k = 0; k <= bound; k++)
    if (is_reached(file, k, query)) return 1;
  return 0;
}

} // namespace

int main(int argc, char **argv) {
  if (argc < 2 || argc > 3) {
    std::cerr << "usage: bmc FILE [BOUND]\n";
    return 2;
  }
  try {
    return check(argv[1], argc == 3 ? std::strtoull(argv[2], nullptr, 10) : 10);
  } catch (const std::exception &error) {
    std::cerr << "bmc: " << error.what() << "\n";
    return 2;
  }
}
