// The functions of c/evaluator.h made from the reference evaluator, to try the comparison itself. Compiled with the name of
// the namespace changed (-Dreference=planted), so that it can be linked beside the reference.

#include <stdbool.h>
#include <stddef.h>
#include <stdint.h>

#include <algorithm>

#include "../reference/evaluator.hpp"

extern "C" {
#include "evaluator.h"
}

namespace {

using reference::Answer;
using reference::Bytes;
using reference::Refusal;

Bytes bytes_of(const uint8_t *start, size_t length) { return Bytes(start, start + length); }

std::string_view text_of(const uint8_t *start, size_t length) { return {reinterpret_cast<const char *>(start), length}; }

uint32_t refuse(const Refusal &why, evaluator_refusal *refusal) {
  *refusal = {why.number, why.place, static_cast<uint64_t>(why.part)};
  return EVALUATOR_REFUSED;
}

template <class Result>
uint32_t tell(const Answer<Result> &answer, evaluator_refusal *refusal) {
  if (const auto *why = std::get_if<Refusal>(&answer)) return refuse(*why, refusal);
  *refusal = {0, 0, 0};
  return EVALUATOR_ACCEPTED;
}

const char *const kind_names[] = {"presence", "level", "classes", "reversed-presence", "reversed-level", "reversed-classes"};

}  // namespace

uint32_t evaluator_check_graph(size_t n, const uint8_t *graph, size_t graph_len, evaluator_refusal *refusal) {
  return tell(reference::read_graph(n, bytes_of(graph, graph_len)), refusal);
}

uint32_t evaluator_read_recipe(const uint8_t *text, size_t text_len, size_t *words, evaluator_refusal *refusal) {
  const auto answer = reference::read_recipe(text_of(text, text_len));
  if (const auto *recipe = std::get_if<reference::Recipe>(&answer)) *words = recipe->size();
  return tell(answer, refusal);
}

uint32_t evaluator_filter(uint32_t kind, size_t n, const uint8_t *graph, size_t graph_len, const uint8_t *vertices,
                          size_t vertices_len, const uint8_t *edges, size_t edges_len, bool edges_absent, const uint8_t *recipe,
                          size_t recipe_len, uint8_t *vertices_out, size_t vertices_out_len, uint8_t *edges_out,
                          size_t edges_out_len, evaluator_refusal *refusal) {
  *refusal = {0, 0, 0};
  if (kind >= 6) return EVALUATOR_NO_KIND;
  std::optional<Bytes> edge_records;
  if (!edges_absent) edge_records = bytes_of(edges, edges_len);
  const auto answer = reference::evaluate(*reference::kind_of(kind_names[kind]), n, bytes_of(graph, graph_len),
                                          bytes_of(vertices, vertices_len), edge_records, text_of(recipe, recipe_len));
  if (const auto *why = std::get_if<Refusal>(&answer)) return refuse(*why, refusal);
  const auto &records = std::get<reference::Records>(answer);
  if (records.vertices.size() != vertices_out_len || records.edges.size() != edges_out_len) {
    return refuse({8, 0, reference::Part::sheet}, refusal);
  }
  std::copy(records.vertices.begin(), records.vertices.end(), vertices_out);
  std::copy(records.edges.begin(), records.edges.end(), edges_out);
  return EVALUATOR_ACCEPTED;
}
