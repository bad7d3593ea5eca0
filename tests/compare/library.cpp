#include "library.hpp"

#ifdef WITHOUT_LIBRARY

bool library_is_there() { return false; }
std::optional<std::string> disagreement_on_graph(const Case &) { return std::nullopt; }
std::optional<std::string> disagreement_on_recipe(const Case &) { return std::nullopt; }
std::optional<std::string> disagreement_on_filter(const Case &, const reference::Answer<reference::Records> &) {
  return std::nullopt;
}

#else

#include <stdbool.h>
#include <stddef.h>
#include <stdint.h>

#include <algorithm>

extern "C" {
#include "evaluator.h"
}

bool library_is_there() { return true; }

namespace {

using reference::Answer;
using reference::Bytes;
using reference::Records;
using reference::Refusal;

// What a call said: its answer and the three numbers.
struct Said {
  std::uint32_t answer;
  evaluator_refusal refusal;
};

// Numbers that no call answers, to see that each call sets all three.
evaluator_refusal unset() { return {111, 222, 333}; }

Said accepted() { return {EVALUATOR_ACCEPTED, {0, 0, 0}}; }
Said no_kind() { return {EVALUATOR_NO_KIND, {0, 0, 0}}; }

Said refused(const Refusal &refusal) {
  return {EVALUATOR_REFUSED, {refusal.number, refusal.place, static_cast<std::uint64_t>(refusal.part)}};
}

template <class Result>
Said said_of(const Answer<Result> &answer) {
  const auto *refusal = std::get_if<Refusal>(&answer);
  return refusal ? refused(*refusal) : accepted();
}

std::string spelled(const Said &said) {
  return std::to_string(said.answer) + " with " + std::to_string(said.refusal.number) + ", " +
         std::to_string(said.refusal.place) + ", " + std::to_string(said.refusal.part);
}

std::optional<std::string> difference(const std::string &call, const Said &said, const Said &expected) {
  if (spelled(said) == spelled(expected)) return std::nullopt;
  return call + " answered " + spelled(said) + "; expected is " + spelled(expected);
}

// Bytes to be read, at an address that need not be a multiple of anything.
class Input {
 public:
  template <class Buffer>
  Input(const Case &given, const Buffer &bytes) : offset_(given.number % 8), size_(bytes.size()), storage_(offset_ + size_ + 1) {
    std::copy(bytes.begin(), bytes.end(), storage_.begin() + static_cast<std::ptrdiff_t>(offset_));
  }
  const std::uint8_t *data() const { return storage_.data() + offset_; }
  std::size_t size() const { return size_; }

 private:
  std::size_t offset_;
  std::size_t size_;
  Bytes storage_;
};

// Bytes to be written, with a margin on both sides that has to stay.
class Output {
 public:
  explicit Output(std::size_t size) : size_(size), storage_(size + 2 * margin, filling) {}
  std::uint8_t *data() { return storage_.data() + margin; }
  std::size_t size() const { return size_; }

  bool margins_are_whole() const {
    const auto whole = [](std::uint8_t byte) { return byte == filling; };
    return std::all_of(storage_.begin(), storage_.begin() + margin, whole) &&
           std::all_of(storage_.end() - margin, storage_.end(), whole);
  }
  bool is_untouched() const {
    return std::all_of(storage_.begin(), storage_.end(), [](std::uint8_t byte) { return byte == filling; });
  }
  bool holds(const Bytes &bytes) const {
    return bytes.size() == size_ && std::equal(bytes.begin(), bytes.end(), storage_.begin() + margin);
  }

 private:
  static constexpr std::ptrdiff_t margin = 32;
  static constexpr std::uint8_t filling = 0xA7;
  std::size_t size_;
  Bytes storage_;
};

std::size_t changed_by(std::size_t length, int extra) {
  const auto longer = static_cast<std::ptrdiff_t>(length) + extra;
  return longer < 0 ? 0 : static_cast<std::size_t>(longer);
}

// A kind that is reversed twice has the order and the records of the kind itself.
std::uint32_t kind_number(const std::string &name) {
  const std::string reversed = "reversed-";
  if (name.compare(0, reversed.size(), reversed) == 0) return (kind_number(name.substr(reversed.size())) + 3) % 6;
  return name == "presence" ? 0 : name == "level" ? 1 : 2;
}

struct Outputs {
  explicit Outputs(const Case &given)
      : width(reference::kind_of(given.kind)->width()),
        right_vertices(given.order <= 1000000 ? given.order * width : 0),
        right_edges(given.graph.size() / 8 * width),
        vertices(changed_by(right_vertices, given.extra_vertex_bytes)),
        edges(changed_by(right_edges, given.extra_edge_bytes)) {}

  bool fit() const { return vertices.size() == right_vertices && edges.size() == right_edges; }

  std::size_t width;
  std::size_t right_vertices;
  std::size_t right_edges;
  Output vertices;
  Output edges;
};

Said call_filter(const Case &given, Outputs &outputs) {
  const Input graph(given, given.graph);
  const Input vertices(given, given.vertices);
  const Input edges(given, given.edges.value_or(Bytes()));
  const Input recipe(given, given.recipe);
  Said said{99, unset()};
  said.answer = evaluator_filter(given.wrong_kind_number.value_or(kind_number(given.kind)), given.order, graph.data(),
                                 graph.size(), vertices.data(), vertices.size(), edges.data(), edges.size(), !given.edges,
                                 recipe.data(), recipe.size(), outputs.vertices.data(), outputs.vertices.size(),
                                 outputs.edges.data(), outputs.edges.size(), &said.refusal);
  return said;
}

// The answer that the library should give: the kind's number comes first, the lengths of the outputs last.
Said expected_of_filter(const Case &given, const Answer<Records> &expected, const Outputs &outputs) {
  if (given.wrong_kind_number) return no_kind();
  if (std::holds_alternative<Refusal>(expected)) return said_of(expected);
  return outputs.fit() ? accepted() : refused({8, 0, reference::Part::sheet});
}

}  // namespace

std::optional<std::string> disagreement_on_graph(const Case &given) {
  const Input graph(given, given.graph);
  Said said{99, unset()};
  said.answer = evaluator_check_graph(given.order, graph.data(), graph.size(), &said.refusal);
  return difference("evaluator_check_graph", said, said_of(reference::read_graph(given.order, given.graph)));
}

std::optional<std::string> disagreement_on_recipe(const Case &given) {
  constexpr std::size_t unset_words = 12345;
  const Input recipe(given, given.recipe);
  const auto expected = reference::read_recipe(given.recipe);
  Said said{99, unset()};
  std::size_t words = unset_words;
  said.answer = evaluator_read_recipe(recipe.data(), recipe.size(), &words, &said.refusal);
  if (const auto differs = difference("evaluator_read_recipe", said, said_of(expected))) return differs;
  const auto *read = std::get_if<reference::Recipe>(&expected);
  const std::size_t expected_words = read ? read->size() : unset_words;
  if (words == expected_words) return std::nullopt;
  return "evaluator_read_recipe left " + std::to_string(words) + " words; expected are " + std::to_string(expected_words);
}

std::optional<std::string> disagreement_on_filter(const Case &given, const Answer<Records> &expected) {
  Outputs outputs(given);
  const Said said = call_filter(given, outputs);
  const Said expected_said = expected_of_filter(given, expected, outputs);
  if (const auto differs = difference("evaluator_filter", said, expected_said)) return differs;
  if (!outputs.vertices.margins_are_whole() || !outputs.edges.margins_are_whole()) {
    return "evaluator_filter wrote beside its outputs";
  }
  if (expected_said.answer != EVALUATOR_ACCEPTED) {
    if (outputs.vertices.is_untouched() && outputs.edges.is_untouched()) return std::nullopt;
    return "evaluator_filter changed its outputs though it was not accepted";
  }
  const Records &records = std::get<Records>(expected);
  if (!outputs.vertices.holds(records.vertices)) return "evaluator_filter: the vertex records differ";
  if (!outputs.edges.holds(records.edges)) return "evaluator_filter: the edge records differ";
  return std::nullopt;
}

#endif
