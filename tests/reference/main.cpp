// The reference evaluator as a program, with the arguments of `evaluate`.
//
//   KIND N GRAPH VERTICES EDGES RECIPE VERTICES_OUT EDGES_OUT
//
// EDGES may be `-`: absent. RECIPE is the text itself, or @FILE: what the file holds without one final newline. A refusal is the line
// `refused NUMBER PLACE` and status 1; arguments that make no sense, and files that cannot be read or written, are status 2.

#include <charconv>
#include <iostream>

#include "evaluator.hpp"
#include "files.hpp"

namespace {

using reference::Bytes;

struct Unusable {
  std::string why;
};

template <class Buffer>
Buffer read_or_stop(const std::string &path) {
  auto bytes = files::read<Buffer>(path);
  if (!bytes) throw Unusable{"cannot read " + path};
  return std::move(*bytes);
}

void write_or_stop(const std::string &path, const Bytes &bytes) {
  if (!files::write(path, bytes)) throw Unusable{"cannot write " + path};
}

std::uint64_t number_or_stop(const std::string &text) {
  std::uint64_t number = 0;
  const char *end = text.data() + text.size();
  const auto [rest, error] = std::from_chars(text.data(), end, number);
  if (error != std::errc() || rest != end) throw Unusable{"no number of vertices: " + text};
  return number;
}

std::unique_ptr<reference::Kind> kind_or_stop(const std::string &name) {
  auto kind = reference::kind_of(name);
  if (!kind) throw Unusable{"no kind: " + name};
  return kind;
}

int evaluate(const std::vector<std::string> &arguments) {
  if (arguments.size() != 8) throw Unusable{"KIND N GRAPH VERTICES EDGES RECIPE VERTICES_OUT EDGES_OUT"};
  const auto kind = kind_or_stop(arguments[0]);
  const auto order = number_or_stop(arguments[1]);
  const auto graph = read_or_stop<Bytes>(arguments[2]);
  const auto vertices = read_or_stop<Bytes>(arguments[3]);
  std::optional<Bytes> edges;
  if (arguments[4] != "-") edges = read_or_stop<Bytes>(arguments[4]);
  std::string recipe = arguments[5];
  if (!recipe.empty() && recipe[0] == '@') {
    recipe = read_or_stop<std::string>(recipe.substr(1));
    if (!recipe.empty() && recipe.back() == '\n') recipe.pop_back();
  }

  const auto answer = reference::evaluate(*kind, order, graph, vertices, edges, recipe);
  if (const auto *refusal = std::get_if<reference::Refusal>(&answer)) {
    std::cout << "refused " << refusal->number << ' ' << refusal->place << '\n';
    std::cerr << name_of(refusal->part) << ": rule " << refusal->number << " at " << refusal->place << '\n';
    return 1;
  }
  const auto &records = std::get<reference::Records>(answer);
  write_or_stop(arguments[6], records.vertices);
  write_or_stop(arguments[7], records.edges);
  std::cout << "filtered " << order << " vertices and " << graph.size() / 8 << " edges\n";
  return 0;
}

}  // namespace

int main(int count, char **arguments) {
  try {
    return evaluate(std::vector<std::string>(arguments + 1, arguments + count));
  } catch (const Unusable &unusable) {
    std::cerr << unusable.why << '\n';
    return 2;
  }
}
