#include "evaluator.hpp"

#include <algorithm>

namespace reference {

const char *name_of(Part part) {
  switch (part) {
    case Part::graph: return "graph";
    case Part::sheet: return "sheet";
    case Part::word: return "word";
    case Part::recipe: return "recipe";
    case Part::reading: return "reading";
  }
  return "";
}

bool operator==(const Refusal &one, const Refusal &other) {
  return one.number == other.number && one.place == other.place && one.part == other.part;
}

bool operator==(const Weighting &one, const Weighting &other) {
  return one.vertices == other.vertices && one.edges == other.edges;
}

namespace {

std::uint32_t number_at(const Bytes &bytes, std::size_t start, std::size_t width) {
  std::uint32_t number = 0;
  for (std::size_t k = 0; k < width; ++k) {
    number |= static_cast<std::uint32_t>(bytes[start + k]) << (8 * k);
  }
  return number;
}

}  // namespace

// Kinds.

namespace {

class Presence : public Kind {
 public:
  Weight lowest() const override { return 0; }
  Weight highest() const override { return 1; }
  Weight join(Weight x, Weight y) const override { return x == 1 || y == 1 ? 1 : 0; }
  Weight meet(Weight x, Weight y) const override { return x == 1 && y == 1 ? 1 : 0; }
  bool is_below(Weight x, Weight y) const override { return x == 0 || y == 1; }
  std::size_t width() const override { return 1; }
  bool is_value(Weight number) const override { return number == 0 || number == 1; }
};

class Level : public Kind {
 public:
  Weight lowest() const override { return 0; }
  Weight highest() const override { return 65535; }
  Weight join(Weight x, Weight y) const override { return std::max(x, y); }
  Weight meet(Weight x, Weight y) const override { return std::min(x, y); }
  bool is_below(Weight x, Weight y) const override { return x <= y; }
  std::size_t width() const override { return 2; }
  bool is_value(Weight) const override { return true; }
};

class Classes : public Kind {
 public:
  Weight lowest() const override { return 0; }
  Weight highest() const override { return 0xFFFFFFFF; }
  Weight join(Weight x, Weight y) const override { return x | y; }
  Weight meet(Weight x, Weight y) const override { return x & y; }
  bool is_below(Weight x, Weight y) const override { return (x & ~y) == 0; }
  std::size_t width() const override { return 4; }
  bool is_value(Weight) const override { return true; }
};

class Reversed : public Kind {
 public:
  explicit Reversed(std::unique_ptr<Kind> inner) : inner_(std::move(inner)) {}
  Weight lowest() const override { return inner_->highest(); }
  Weight highest() const override { return inner_->lowest(); }
  Weight join(Weight x, Weight y) const override { return inner_->meet(x, y); }
  Weight meet(Weight x, Weight y) const override { return inner_->join(x, y); }
  bool is_below(Weight x, Weight y) const override { return inner_->is_below(y, x); }
  std::size_t width() const override { return inner_->width(); }
  bool is_value(Weight number) const override { return inner_->is_value(number); }

 private:
  std::unique_ptr<Kind> inner_;
};

}  // namespace

std::unique_ptr<Kind> kind_of(std::string_view name) {
  constexpr std::string_view reversed = "reversed-";
  if (name.substr(0, reversed.size()) == reversed) {
    auto inner = kind_of(name.substr(reversed.size()));
    return inner ? std::make_unique<Reversed>(std::move(inner)) : nullptr;
  }
  if (name == "presence") return std::make_unique<Presence>();
  if (name == "level") return std::make_unique<Level>();
  if (name == "classes") return std::make_unique<Classes>();
  return nullptr;
}

// Graphs.

namespace {

constexpr std::uint64_t most_vertices = 1000000;
constexpr std::uint64_t most_edges = 4000000;
constexpr std::size_t edge_bytes = 8;

bool is_above(const Edge &edge, const Edge &before) {
  return edge.first > before.first || (edge.first == before.first && edge.second > before.second);
}

// The first rule that record k breaks, which stands after the records in `before`.
std::optional<Refusal> fault_of(const Edge &edge, std::uint64_t order, const std::vector<Edge> &before) {
  const std::uint64_t place = before.size();
  if (!(edge.first < edge.second)) return Refusal{4, place, Part::graph};
  if (!(edge.second < order)) return Refusal{5, place, Part::graph};
  if (!before.empty() && !is_above(edge, before.back())) return Refusal{6, place, Part::graph};
  return std::nullopt;
}

}  // namespace

Answer<Graph> read_graph(std::uint64_t order, const Bytes &file) {
  if (file.size() % edge_bytes != 0) return Refusal{1, 0, Part::graph};
  const std::size_t count = file.size() / edge_bytes;
  if (order > most_vertices || count > most_edges) return Refusal{2, 0, Part::graph};

  Graph graph;
  graph.order = order;
  for (std::size_t k = 0; k < count; ++k) {
    const Edge edge{number_at(file, k * edge_bytes, 4), number_at(file, k * edge_bytes + 4, 4)};
    if (const auto fault = fault_of(edge, order, graph.edges)) return *fault;
    graph.edges.push_back(edge);
  }

  graph.edges_at.resize(order);
  for (std::size_t k = 0; k < count; ++k) {
    graph.edges_at[graph.edges[k].first].push_back(k);
    graph.edges_at[graph.edges[k].second].push_back(k);
  }
  return graph;
}

// Passes.

Weights Filters::join_to_edges(const Weights &vertices) const {
  Weights made;
  for (const Edge &edge : graph_.edges) {
    made.push_back(kind_.join(vertices[edge.first], vertices[edge.second]));
  }
  return made;
}

Weights Filters::meet_to_edges(const Weights &vertices) const {
  Weights made;
  for (const Edge &edge : graph_.edges) {
    made.push_back(kind_.meet(vertices[edge.first], vertices[edge.second]));
  }
  return made;
}

Weights Filters::join_to_vertices(const Weights &edges) const {
  Weights made;
  for (const auto &edges_at_vertex : graph_.edges_at) {
    Weight least_above = kind_.lowest();
    for (const std::size_t k : edges_at_vertex) least_above = kind_.join(least_above, edges[k]);
    made.push_back(least_above);
  }
  return made;
}

Weights Filters::meet_to_vertices(const Weights &edges) const {
  Weights made;
  for (const auto &edges_at_vertex : graph_.edges_at) {
    Weight greatest_below = kind_.highest();
    for (const std::size_t k : edges_at_vertex) greatest_below = kind_.meet(greatest_below, edges[k]);
    made.push_back(greatest_below);
  }
  return made;
}

// Rounds and halves.

Weighting Filters::dilation_round(const Weighting &old) const {
  return {join_to_vertices(join_to_edges(old.vertices)), join_to_edges(join_to_vertices(old.edges))};
}

Weighting Filters::erosion_round(const Weighting &old) const {
  return {meet_to_vertices(meet_to_edges(old.vertices)), meet_to_edges(meet_to_vertices(old.edges))};
}

Weighting Filters::half_opening(const Weighting &old) const {
  return {join_to_vertices(meet_to_edges(old.vertices)), join_to_edges(meet_to_vertices(old.edges))};
}

Weighting Filters::half_closing(const Weighting &old) const {
  return {meet_to_vertices(join_to_edges(old.vertices)), meet_to_edges(join_to_vertices(old.edges))};
}

// Filters.

Weighting Filters::dilation(unsigned size, Weighting weighting) const {
  for (unsigned round = 0; round < size; ++round) weighting = dilation_round(weighting);
  return weighting;
}

Weighting Filters::erosion(unsigned size, Weighting weighting) const {
  for (unsigned round = 0; round < size; ++round) weighting = erosion_round(weighting);
  return weighting;
}

Weighting Filters::opening(unsigned size, const Weighting &weighting) const {
  const Weighting eroded = erosion(size / 2, weighting);
  return dilation(size / 2, size % 2 == 1 ? half_opening(eroded) : eroded);
}

Weighting Filters::closing(unsigned size, const Weighting &weighting) const {
  const Weighting dilated = dilation(size / 2, weighting);
  return erosion(size / 2, size % 2 == 1 ? half_closing(dilated) : dilated);
}

Weighting Filters::alternate(unsigned size, Weighting weighting) const {
  for (unsigned step = 1; step <= size; ++step) {
    weighting = closing(step, weighting);
    weighting = opening(step, weighting);
  }
  return weighting;
}

// Recipes.

namespace {

constexpr std::size_t longest_text = 4096;
constexpr std::size_t most_words = 96;
constexpr unsigned largest_size = 200;

struct Span {
  std::size_t start;
  std::string_view bytes;
};

// The longest runs of bytes other than the space.
std::vector<Span> words_of(std::string_view text) {
  std::vector<Span> words;
  std::size_t start = text.find_first_not_of(' ');
  while (start != std::string_view::npos) {
    const std::size_t end = std::min(text.find(' ', start), text.size());
    words.push_back({start, text.substr(start, end - start)});
    start = text.find_first_not_of(' ', end);
  }
  return words;
}

bool is_one_of(char byte, std::string_view bytes) { return bytes.find(byte) != std::string_view::npos; }

bool is_filter_letter(char byte) { return is_one_of(byte, "DEOCA"); }
bool is_hold_letter(char byte) { return is_one_of(byte, "HJMF"); }

bool are_digits_of_a_size(std::string_view bytes) {
  return !bytes.empty() && bytes[0] != '0' && bytes.find_first_not_of("0123456789") == std::string_view::npos;
}

bool has_right_shape(std::string_view word) {
  if (word.size() == 1) return is_hold_letter(word[0]);
  return !word.empty() && is_filter_letter(word[0]) && are_digits_of_a_size(word.substr(1));
}

// Whether some word of a right shape begins with these bytes.
bool begins_a_right_word(std::string_view bytes) {
  return bytes.empty() || has_right_shape(bytes) || (bytes.size() == 1 && is_filter_letter(bytes[0]));
}

// Where a word of a wrong shape departs.
std::size_t departure_of(std::string_view word) {
  std::size_t place = 0;
  while (place < word.size() && begins_a_right_word(word.substr(0, place + 1))) ++place;
  return place;
}

// The size of a word of a right shape; any number over the largest size stands for all of them.
unsigned size_of(std::string_view word) {
  if (word.size() == 1) return 0;
  const std::string_view digits = word.substr(1);
  return digits.size() > 3 ? largest_size + 1 : static_cast<unsigned>(std::stoul(std::string(digits)));
}

bool is_out_of_turn(char letter, bool held) { return letter == 'H' ? held : is_hold_letter(letter) && !held; }

// The first rule that a word breaks which stands after `before` other words.
std::optional<Refusal> fault_of(const Span &word, std::size_t before, bool held) {
  if (!has_right_shape(word.bytes)) return Refusal{13, word.start + departure_of(word.bytes), Part::word};
  if (size_of(word.bytes) > largest_size) return Refusal{11, word.start, Part::word};
  if (before >= most_words) return Refusal{14, word.start, Part::recipe};
  if (is_out_of_turn(word.bytes[0], held)) return Refusal{15, word.start, Part::recipe};
  return std::nullopt;
}

}  // namespace

Answer<Recipe> read_recipe(std::string_view text) {
  if (text.size() > longest_text) return Refusal{12, 0, Part::recipe};
  Recipe recipe;
  bool held = false;
  for (const Span &word : words_of(text)) {
    if (const auto fault = fault_of(word, recipe.size(), held)) return *fault;
    const char letter = word.bytes[0];
    if (is_hold_letter(letter)) held = letter == 'H';
    recipe.push_back({letter, size_of(word.bytes)});
  }
  if (held) return Refusal{16, text.size(), Part::recipe};
  return recipe;
}

// Sheets.

namespace {

std::optional<Weight> decode(const Kind &kind, const Bytes &records, std::size_t index) {
  const Weight number = number_at(records, index * kind.width(), kind.width());
  return kind.is_value(number) ? std::optional<Weight>(number) : std::nullopt;
}

Bytes encode(const Kind &kind, const Weights &weights) {
  Bytes records;
  for (const Weight weight : weights) {
    for (std::size_t k = 0; k < kind.width(); ++k) records.push_back(static_cast<std::uint8_t>(weight >> (8 * k)));
  }
  return records;
}

}  // namespace

Answer<Weighting> open_records(const Kind &kind, const Graph &graph, const Bytes &vertices, const std::optional<Bytes> &edges) {
  const bool vertices_fit = vertices.size() == graph.order * kind.width();
  const bool edges_fit = !edges || edges->size() == graph.edges.size() * kind.width();
  if (!vertices_fit || !edges_fit) return Refusal{8, 0, Part::sheet};

  Weighting weighting;
  for (std::size_t i = 0; i < graph.order; ++i) {
    const auto weight = decode(kind, vertices, i);
    if (!weight) return Refusal{9, i, Part::sheet};
    weighting.vertices.push_back(*weight);
  }
  if (!edges) {
    weighting.edges = Filters(kind, graph).meet_to_edges(weighting.vertices);
    return weighting;
  }
  for (std::size_t j = 0; j < graph.edges.size(); ++j) {
    const auto weight = decode(kind, *edges, j);
    if (!weight) return Refusal{9, graph.order + j, Part::sheet};
    const bool below_both = kind.is_below(*weight, weighting.vertices[graph.edges[j].first]) &&
                            kind.is_below(*weight, weighting.vertices[graph.edges[j].second]);
    if (!below_both) return Refusal{10, j, Part::sheet};
    weighting.edges.push_back(*weight);
  }
  return weighting;
}

namespace {

Weights place_by_place(const Kind &kind, Weight (Kind::*operation)(Weight, Weight) const, const Weights &one,
                       const Weights &other) {
  Weights made;
  for (std::size_t k = 0; k < one.size(); ++k) made.push_back((kind.*operation)(one[k], other[k]));
  return made;
}

Weighting place_by_place(const Kind &kind, Weight (Kind::*operation)(Weight, Weight) const, const Weighting &one,
                         const Weighting &other) {
  return {place_by_place(kind, operation, one.vertices, other.vertices), place_by_place(kind, operation, one.edges, other.edges)};
}

}  // namespace

Weighting run(const Kind &kind, const Graph &graph, const Recipe &recipe, Weighting weighting) {
  const Filters filters(kind, graph);
  Weighting held;
  for (const Word &word : recipe) {
    switch (word.letter) {
      case 'D': weighting = filters.dilation(word.size, weighting); break;
      case 'E': weighting = filters.erosion(word.size, weighting); break;
      case 'O': weighting = filters.opening(word.size, weighting); break;
      case 'C': weighting = filters.closing(word.size, weighting); break;
      case 'A': weighting = filters.alternate(word.size, weighting); break;
      case 'H': held = weighting; break;
      case 'J': weighting = place_by_place(kind, &Kind::join, weighting, held); break;
      case 'M': weighting = place_by_place(kind, &Kind::meet, weighting, held); break;
      case 'F': break;
    }
  }
  return weighting;
}

Records close_records(const Kind &kind, const Weighting &weighting) {
  return {encode(kind, weighting.vertices), encode(kind, weighting.edges)};
}

Answer<Records> evaluate(const Kind &kind, std::uint64_t order, const Bytes &graph_file, const Bytes &vertices,
                         const std::optional<Bytes> &edges, std::string_view text) {
  const auto graph = read_graph(order, graph_file);
  if (const auto *refusal = std::get_if<Refusal>(&graph)) return *refusal;
  const auto weighting = open_records(kind, std::get<Graph>(graph), vertices, edges);
  if (const auto *refusal = std::get_if<Refusal>(&weighting)) return *refusal;
  const auto recipe = read_recipe(text);
  if (const auto *refusal = std::get_if<Refusal>(&recipe)) return *refusal;
  return close_records(kind, run(kind, std::get<Graph>(graph), std::get<Recipe>(recipe), std::get<Weighting>(weighting)));
}

}  // namespace reference
