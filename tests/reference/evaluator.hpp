// The evaluator written a second time, from the pages in docs/ alone. It shares no code with the product and is meant to be
// plain rather than quick: every pass makes a new list, and the edges at a vertex are looked up in a list of their own.

#pragma once

#include <cstddef>
#include <cstdint>
#include <memory>
#include <optional>
#include <string>
#include <string_view>
#include <variant>
#include <vector>

namespace reference {

using Bytes = std::vector<std::uint8_t>;

// Refusals (docs/refusals.md).

enum class Part { graph = 1, sheet = 2, word = 3, recipe = 4, reading = 5 };

const char *name_of(Part part);

struct Refusal {
  unsigned number;
  std::uint64_t place;
  Part part;
};

bool operator==(const Refusal &one, const Refusal &other);

// What was asked for, or why it is refused.
template <class Result>
using Answer = std::variant<Result, Refusal>;

// Kinds of weight (docs/kinds.md).

// A weight is kept as the number of its record: 0 or 1, a level, or the bits of a set of classes.
using Weight = std::uint32_t;
using Weights = std::vector<Weight>;

class Kind {
 public:
  virtual ~Kind() = default;

  virtual Weight lowest() const = 0;
  virtual Weight highest() const = 0;
  virtual Weight join(Weight x, Weight y) const = 0;
  virtual Weight meet(Weight x, Weight y) const = 0;
  virtual bool is_below(Weight x, Weight y) const = 0;

  // The bytes of a record.
  virtual std::size_t width() const = 0;
  // Whether the number that a record spells is a value.
  virtual bool is_value(Weight number) const = 0;
};

// The kind `presence`, `level` or `classes`, or one of them with `reversed-` in front, any number of times; null for other names.
std::unique_ptr<Kind> kind_of(std::string_view name);

// Graphs (docs/graphs.md).

struct Edge {
  std::uint64_t first;
  std::uint64_t second;
};

struct Graph {
  std::uint64_t order = 0;
  std::vector<Edge> edges;
  // For each vertex the indices of the edges at it.
  std::vector<std::vector<std::size_t>> edges_at;
};

Answer<Graph> read_graph(std::uint64_t order, const Bytes &file);

// Weightings, passes, filters (docs/filters.md).

struct Weighting {
  Weights vertices;
  Weights edges;
};

bool operator==(const Weighting &one, const Weighting &other);

class Filters {
 public:
  Filters(const Kind &kind, const Graph &graph) : kind_(kind), graph_(graph) {}

  Weights join_to_edges(const Weights &vertices) const;
  Weights meet_to_edges(const Weights &vertices) const;
  Weights join_to_vertices(const Weights &edges) const;
  Weights meet_to_vertices(const Weights &edges) const;

  Weighting dilation_round(const Weighting &old) const;
  Weighting erosion_round(const Weighting &old) const;
  Weighting half_opening(const Weighting &old) const;
  Weighting half_closing(const Weighting &old) const;

  Weighting dilation(unsigned size, Weighting weighting) const;
  Weighting erosion(unsigned size, Weighting weighting) const;
  Weighting opening(unsigned size, const Weighting &weighting) const;
  Weighting closing(unsigned size, const Weighting &weighting) const;
  Weighting alternate(unsigned size, Weighting weighting) const;

 private:
  const Kind &kind_;
  const Graph &graph_;
};

// Recipes (docs/recipes.md).

struct Word {
  char letter;
  unsigned size;  // 0 for H, J, M and F
};

using Recipe = std::vector<Word>;

Answer<Recipe> read_recipe(std::string_view text);

// Sheets (docs/sheets.md).

struct Records {
  Bytes vertices;
  Bytes edges;
};

// The weights that records stand for. Without edge records each edge gets the meet of its ends.
Answer<Weighting> open_records(const Kind &kind, const Graph &graph, const Bytes &vertices, const std::optional<Bytes> &edges);

// The weights after the words of a recipe.
Weighting run(const Kind &kind, const Graph &graph, const Recipe &recipe, Weighting weighting);

Records close_records(const Kind &kind, const Weighting &weighting);

// All of it in one call: the graph file is judged first, then the records, then the recipe.
Answer<Records> evaluate(const Kind &kind, std::uint64_t order, const Bytes &graph, const Bytes &vertices,
                         const std::optional<Bytes> &edges, std::string_view recipe);

}  // namespace reference
