// Checks the reference evaluator and the grid evaluator against the worked examples of docs/. Each example names its page.

#include <cstdio>
#include <initializer_list>
#include <string>

#include "evaluator.hpp"
#include "grid.hpp"

namespace {

using namespace reference;

unsigned examples = 0;
unsigned faults = 0;

void expect(bool right, const std::string &page, const std::string &what, const std::string &said) {
  ++examples;
  if (right) return;
  ++faults;
  std::printf("docs/%s: %s: the reference says %s\n", page.c_str(), what.c_str(), said.c_str());
}

std::string spelled(const Weights &weights) {
  std::string text;
  for (const Weight weight : weights) text += (text.empty() ? "" : " ") + std::to_string(weight);
  return text;
}

std::string spelled(const Weighting &weighting) { return spelled(weighting.vertices) + " | " + spelled(weighting.edges); }

std::string spelled(const Refusal &refusal) {
  return std::to_string(refusal.number) + ", place " + std::to_string(refusal.place) + ", part " + name_of(refusal.part);
}

template <class Result>
std::string refusal_or_accepted(const Answer<Result> &answer) {
  const auto *refusal = std::get_if<Refusal>(&answer);
  return refusal ? spelled(*refusal) : "accepted";
}

std::string times(unsigned count, const std::string &text) {
  std::string repeated;
  for (unsigned k = 0; k < count; ++k) repeated += text;
  return repeated;
}

// Sheets of the examples.

using Ends = std::vector<Edge>;

void put_number(Bytes &bytes, std::uint64_t number, std::size_t width) {
  for (std::size_t k = 0; k < width; ++k) bytes.push_back(static_cast<std::uint8_t>(number >> (8 * k)));
}

Bytes file_of(const Ends &edges) {
  Bytes file;
  for (const Edge &edge : edges) {
    put_number(file, edge.first, 4);
    put_number(file, edge.second, 4);
  }
  return file;
}

Bytes records_of(const Kind &kind, const Weights &weights) {
  Bytes records;
  for (const Weight weight : weights) put_number(records, weight, kind.width());
  return records;
}

Graph graph_of(std::uint64_t order, const Ends &edges) { return std::get<Graph>(read_graph(order, file_of(edges))); }

Ends path_of(std::uint64_t order) {
  Ends edges;
  for (std::uint64_t v = 0; v + 1 < order; ++v) edges.push_back({v, v + 1});
  return edges;
}

Ends grid_of(std::uint64_t width, std::uint64_t height) {
  Ends edges;
  for (std::uint64_t v = 0; v < width * height; ++v) {
    if (v % width + 1 < width) edges.push_back({v, v + 1});
    if (v / width + 1 < height) edges.push_back({v, v + width});
  }
  return edges;
}

class Sheet {
 public:
  // Edge records absent.
  Sheet(const std::string &kind, std::uint64_t order, const Ends &edges, const Weights &vertices)
      : kind_(kind_of(kind)), graph_(graph_of(order, edges)) {
    start_ = std::get<Weighting>(open_records(*kind_, graph_, records_of(*kind_, vertices), std::nullopt));
  }
  // Any weights, also such that open would refuse.
  Sheet(const std::string &kind, std::uint64_t order, const Ends &edges, const Weights &vertices, const Weights &edge_weights)
      : kind_(kind_of(kind)), graph_(graph_of(order, edges)), start_{vertices, edge_weights} {}

  const Weighting &start() const { return start_; }

  Weighting after(const std::string &recipe) const { return run(*kind_, graph_, std::get<Recipe>(read_recipe(recipe)), start_); }

  // Present where the threshold is below the weight.
  Sheet cut(Weight threshold) const {
    Sheet made = *this;
    made.kind_ = kind_of("presence");
    made.start_ = cut(threshold, start_);
    return made;
  }

  Weighting cut(Weight threshold, const Weighting &weighting) const {
    Weighting made;
    for (const Weight weight : weighting.vertices) made.vertices.push_back(kind_->is_below(threshold, weight));
    for (const Weight weight : weighting.edges) made.edges.push_back(kind_->is_below(threshold, weight));
    return made;
  }

 private:
  std::shared_ptr<Kind> kind_;
  Graph graph_;
  Weighting start_;
};

void leaves(const std::string &page, const Sheet &sheet, const std::string &recipe, const Weights &vertices,
            const Weights &edges) {
  const Weighting after = sheet.after(recipe);
  expect(after == Weighting{vertices, edges}, page, recipe, spelled(after));
}

void leaves(const std::string &page, const Sheet &sheet, const std::string &recipe, const Weights &vertices) {
  const Weighting after = sheet.after(recipe);
  expect(after.vertices == vertices, page, recipe, spelled(after.vertices));
}

Sheet path_sheet() { return {"level", 5, path_of(5), {5, 2, 7, 7, 1}}; }
Sheet lonely_sheet() { return {"level", 3, {{0, 1}}, {4, 6, 9}}; }
Sheet classes_sheet() { return {"classes", 2, {{0, 1}}, {3, 6}}; }

// Results of filters.

void twelve_results() {
  const std::string page = "overview.md";
  const Sheet path = path_sheet();
  expect(path.start() == Weighting{{5, 2, 7, 7, 1}, {2, 2, 7, 1}}, page, "start", spelled(path.start()));
  leaves(page, path, "D1", {5, 7, 7, 7, 7}, {2, 7, 7, 7});
  leaves(page, path, "E1", {2, 2, 2, 1, 1}, {2, 2, 1, 1});
  leaves(page, path, "O1", {2, 2, 7, 7, 1}, {2, 2, 2, 1});
  leaves(page, path, "O2", {2, 2, 2, 2, 1}, {2, 2, 2, 1});
  leaves(page, path, "C1", {5, 5, 7, 7, 7}, {2, 2, 7, 1});
  leaves(page, path, "C2", {5, 5, 7, 7, 7}, {2, 2, 7, 7});
  leaves(page, path, "A1", {5, 5, 7, 7, 7}, {2, 2, 2, 1});
  leaves(page, path, "A1 A2", {5, 5, 7, 7, 7}, {2, 2, 2, 2});
  leaves(page, path, "A2", {5, 5, 7, 7, 7}, {2, 2, 2, 2});
  leaves(page, path, "D1 H E1 M", {5, 5, 7, 7, 7}, {2, 2, 7, 7});
  leaves(page, path.cut(5), "", {1, 0, 1, 1, 0}, {0, 0, 1, 0});
  leaves(page, path.cut(5), "O1", {0, 0, 1, 1, 0}, {0, 0, 0, 0});
  const Weighting filtered_then_cut = path.cut(5, path.after("O1"));
  expect(filtered_then_cut == Weighting{{0, 0, 1, 1, 0}, {0, 0, 0, 0}}, page, "O1, cut at 5", spelled(filtered_then_cut));
  leaves(page, lonely_sheet(), "D1", {6, 6, 0}, {4});
  leaves(page, lonely_sheet(), "C1", {6, 6, 65535}, {4});
  leaves(page, classes_sheet(), "D1", {7, 7}, {2});
}

void passes() {
  const auto kind = kind_of("level");
  const Graph graph = graph_of(5, path_of(5));
  const Filters filters(*kind, graph);
  const auto makes = [](const std::string &pass, const Weights &made, const Weights &expected) {
    expect(made == expected, "filters.md", pass, spelled(made));
  };
  makes("join to edges", filters.join_to_edges({5, 2, 7, 7, 1}), {5, 7, 7, 7});
  makes("meet to edges", filters.meet_to_edges({5, 2, 7, 7, 1}), {2, 2, 7, 1});
  makes("join to vertices", filters.join_to_vertices({2, 2, 7, 1}), {2, 2, 7, 7, 1});
  makes("meet to vertices", filters.meet_to_vertices({2, 2, 7, 1}), {2, 2, 2, 1, 1});
}

void filters_page() {
  const std::string page = "filters.md";
  const Sheet path = path_sheet();
  leaves(page, path, "D2", {7, 7, 7, 7, 7}, {7, 7, 7, 7});
  leaves(page, path, "E2", {2, 2, 1, 1, 1}, {2, 1, 1, 1});
  leaves(page, path, "O3", {2, 2, 2, 2, 1}, {2, 2, 2, 1});
  leaves(page, path, "C3", {7, 7, 7, 7, 7}, {2, 2, 7, 7});
  leaves(page, path, "C4", {7, 7, 7, 7, 7}, {7, 7, 7, 7});
  leaves(page, path, "A3", {7, 7, 7, 7, 7}, {2, 2, 2, 2});
  leaves(page, path, "O1 C1", {2, 2, 7, 7, 7}, {2, 2, 2, 1});
  leaves(page, path, "C2 O2", {5, 5, 7, 7, 7}, {2, 2, 7, 7});
  leaves(page, lonely_sheet(), "E1", {4, 4, 65535}, {4});
  leaves(page, lonely_sheet(), "O1", {4, 4, 0}, {4});
  leaves(page, lonely_sheet(), "A1", {6, 6, 0}, {4});
  leaves(page, classes_sheet(), "E1", {2, 2}, {2});
  leaves(page, classes_sheet(), "O1", {2, 2}, {2});
  leaves(page, classes_sheet(), "C1", {7, 7}, {2});
  leaves(page, {"level", 3, path_of(3), {9, 0, 0}}, "D1", {9, 9, 0});

  const Sheet same_numbers("reversed-level", 5, path_of(5), {5, 2, 7, 7, 1}, {2, 2, 7, 1});
  leaves(page, same_numbers, "D1", {2, 2, 2, 1, 1}, {2, 2, 1, 1});
  leaves(page, {"reversed-level", 5, path_of(5), {5, 2, 7, 7, 1}}, "", {5, 2, 7, 7, 1}, {5, 7, 7, 7});
}

void rows() {
  const std::string page = "filters.md";
  const auto row = [](const Weights &pixels) { return Sheet("level", pixels.size(), path_of(pixels.size()), pixels); };
  for (const char *recipe : {"O1", "O2", "O3", "O4"}) leaves(page, row({0, 9, 0, 0, 0}), recipe, {0, 0, 0, 0, 0});
  leaves(page, row({0, 9, 9, 0, 0}), "O1", {0, 9, 9, 0, 0});
  leaves(page, row({0, 9, 9, 0, 0}), "O2", {0, 0, 0, 0, 0});
  leaves(page, row({0, 9, 9, 9, 0}), "O2", {0, 9, 9, 9, 0});
  leaves(page, row({0, 9, 9, 9, 0}), "O3", {0, 0, 0, 0, 0});
  leaves(page, row({0, 0, 9, 9, 9, 9, 0}), "O3", {0, 0, 9, 9, 9, 9, 0});
  leaves(page, row({0, 0, 9, 9, 9, 9, 0}), "O4", {0, 0, 0, 0, 0, 0, 0});
  leaves("from-the-grid.md", row({9, 0, 0, 9}), "C2 O2", {9, 9, 9, 9});
  leaves("from-the-grid.md", row({9, 0, 0, 9}), "A2", {0, 0, 0, 0});
  leaves("from-the-grid.md", row({9}), "D1", {0});
  leaves("from-the-grid.md", row({9}), "E1", {65535});
}

void algebra_page() {
  const std::string page = "algebra.md";
  const Sheet path = path_sheet();
  leaves(page, path, "O1 O2 O1", {2, 2, 2, 2, 1}, {2, 2, 2, 1});
  leaves(page, path, "C1 C3 C2", {7, 7, 7, 7, 7}, {2, 2, 7, 7});
  leaves(page, path, "E1 E2", {2, 1, 1, 1, 1}, {1, 1, 1, 1});
  leaves(page, path, "C1 O1", {5, 5, 7, 7, 7}, {2, 2, 2, 1});
  leaves(page, path, "E1 D1", {2, 2, 2, 2, 1}, {2, 2, 2, 1});

  const auto on_path = [](const Weights &vertices, const Weights &edges) {
    return Sheet("level", 5, path_of(5), vertices, edges);
  };
  leaves(page, on_path({2, 2, 2, 1, 1}, {1, 1, 1, 1}), "D1", {2, 2, 2, 2, 1}, {1, 1, 1, 1});
  leaves(page, on_path({2, 2, 3, 1, 1}, {2, 2, 1, 1}), "D1", {2, 3, 3, 3, 1}, {2, 2, 2, 1});
  leaves(page, on_path({2, 2, 2, 1, 1}, {2, 2, 2, 1}), "D1", {2, 2, 2, 2, 1}, {2, 2, 2, 2});

  const Sheet lower = on_path({5, 2, 7, 7, 1}, {1, 0, 6, 1});
  leaves(page, lower, "D1", {5, 7, 7, 7, 7}, {1, 6, 6, 6});
  leaves(page, lower, "E1", {2, 2, 2, 1, 1}, {0, 0, 0, 1});
  leaves(page, lower, "O1", {2, 2, 7, 7, 1}, {1, 0, 1, 1});
  leaves(page, lower, "C1", {5, 5, 7, 7, 7}, {1, 1, 6, 1});
  leaves(page, lower, "A1", {5, 5, 7, 7, 7}, {1, 1, 1, 1});
  leaves(page, {"level", 2, {{0, 1}}, {4, 6}, {5}}, "E1", {4, 4}, {5});

  const Sheet star("level", 4, {{0, 1}, {0, 2}, {0, 3}}, {1, 5, 3, 8});
  leaves(page, star, "D1", {8, 5, 3, 8});
  leaves(page, star, "E1", {1, 1, 1, 1});

  const Sheet tree("presence", 7, {{0, 1}, {1, 2}, {2, 3}, {3, 4}, {3, 6}, {4, 5}}, {0, 0, 1, 1, 0, 0, 0});
  leaves(page, tree, "A1", {0, 0, 1, 1, 0, 0, 1});
  leaves(page, tree, "A3", {0, 0, 0, 1, 1, 1, 0});
  leaves(page, tree, "A1 A3", {0, 0, 0, 1, 1, 1, 0});
  leaves(page, tree, "A3 A1", {0, 0, 0, 1, 1, 1, 1});
}

void cuts() {
  const std::string page = "algebra.md";
  const Sheet path = path_sheet();
  const auto both = [&](const std::string &recipe, const Weights &vertices, const Weights &edges) {
    leaves(page, path.cut(5), recipe, vertices, edges);
    const Weighting later = path.cut(5, path.after(recipe));
    expect(later == Weighting{vertices, edges}, page, recipe + ", cut at 5", spelled(later));
  };
  both("D1", {1, 1, 1, 1, 1}, {0, 1, 1, 1});
  both("E1", {0, 0, 0, 0, 0}, {0, 0, 0, 0});
  both("O1", {0, 0, 1, 1, 0}, {0, 0, 0, 0});
  both("O2", {0, 0, 0, 0, 0}, {0, 0, 0, 0});
  both("C1", {1, 1, 1, 1, 1}, {0, 0, 1, 0});
  both("C2", {1, 1, 1, 1, 1}, {0, 0, 1, 1});
  both("A1", {1, 1, 1, 1, 1}, {0, 0, 0, 0});
  both("A2", {1, 1, 1, 1, 1}, {0, 0, 0, 0});
}

void holds() {
  leaves("sheets.md", path_sheet(), "H D1 M", {5, 2, 7, 7, 1}, {2, 2, 7, 1});
  leaves("sheets.md", path_sheet(), "H D1 J", {5, 7, 7, 7, 7}, {2, 7, 7, 7});
  leaves("sheets.md", path_sheet(), "H D1 F", {5, 7, 7, 7, 7}, {2, 7, 7, 7});
  leaves("sheets.md", path_sheet(), "", {5, 2, 7, 7, 1}, {2, 2, 7, 1});
  leaves("stories.md", path_sheet(), "H O1 D1 M", {2, 2, 7, 7, 1}, {2, 2, 2, 1});
  leaves("stories.md", path_sheet(), "H O1 D1 M C1", {2, 2, 7, 7, 7}, {2, 2, 2, 1});
  leaves("stories.md", path_sheet().cut(5), "H O1 D1 M C1", {0, 0, 1, 1, 1}, {0, 0, 0, 0});
}

void pictures() {
  const std::string page = "from-the-grid.md";
  const Weights start = {1, 1, 8, 1, 1, 9, 8, 1, 1, 1, 1, 6};
  const Sheet sheet("level", 12, grid_of(4, 3), start);
  const grid::Picture picture{4, 3, start};
  const auto is = [&](const std::string &what, const grid::Picture &made, const Weights &expected) {
    expect(made.pixels == expected, page, what + " on the grid", spelled(made.pixels));
  };
  const Weights dilated = {1, 9, 8, 8, 9, 9, 9, 8, 1, 9, 8, 6};
  const Weights flat(12, 1);
  const Weights closed = {1, 1, 8, 8, 1, 9, 8, 6, 1, 1, 6, 6};
  leaves(page, sheet, "D1", dilated);
  is("D1", grid::dilation(picture, 1), dilated);
  leaves(page, sheet, "E1", flat);
  is("E1", grid::erosion(picture, 1), flat);
  leaves(page, sheet, "O2", flat);
  is("O1", grid::opening(picture, 1), flat);
  leaves(page, sheet, "C2", closed);
  is("C1", grid::closing(picture, 1), closed);
  leaves(page, sheet, "O1", {1, 1, 8, 1, 1, 8, 8, 1, 1, 1, 1, 1});
  leaves(page, sheet, "C1", start);
}

// Refusals.

void refused_text(const std::string &page, const std::string &text, const Refusal &expected) {
  const auto answer = read_recipe(text);
  const auto *refusal = std::get_if<Refusal>(&answer);
  expect(refusal && *refusal == expected, page, "the text " + text.substr(0, 40), refusal_or_accepted(answer));
}

void accepted_text(const std::string &page, const std::string &text, std::size_t words) {
  const auto answer = read_recipe(text);
  const auto *recipe = std::get_if<Recipe>(&answer);
  expect(recipe && recipe->size() == words, page, "the text " + text.substr(0, 40), refusal_or_accepted(answer));
}

void texts() {
  const std::string recipes = "recipes.md";
  const std::string refusals = "refusals.md";
  const std::string pairs = times(48, "H F ");
  const auto shape = [&](const std::string &text, std::uint64_t place) { refused_text(refusals, text, {13, place, Part::word}); };
  shape("O03", 1);
  shape("O0", 1);
  shape("O3 4 C2", 3);
  shape("O", 1);
  shape("D H", 1);
  shape("D1 O", 4);
  shape("O+3", 1);
  shape("O3x", 2);
  shape("HH", 1);
  shape("H1", 1);
  shape("o3", 0);
  shape("4", 0);
  shape("D1\tE1", 2);
  shape("A1\n", 2);
  shape("D1,E1", 2);
  shape("D 1", 1);
  shape("O201x", 4);
  shape(pairs + "D", 193);
  shape(pairs + "X", 192);

  const auto size = [&](const std::string &text, std::uint64_t place) { refused_text(refusals, text, {11, place, Part::word}); };
  size("O201", 0);
  size("D500", 0);
  size(" O201", 1);
  size("D1 O201", 3);
  size("D201 X", 0);
  size("D1 A99999999999999999999", 3);
  size("O" + times(2000, "9"), 0);
  size(pairs + "D201", 192);

  const auto text = [&](unsigned number, const std::string &given, std::uint64_t place) {
    refused_text(refusals, given, {number, place, Part::recipe});
  };
  text(12, times(4097, " "), 0);
  text(12, "X" + times(4096, " "), 0);
  text(14, pairs + "D1", 192);
  text(14, pairs + "J", 192);
  text(15, "J", 0);
  text(15, "H H", 2);
  text(15, "J O201", 0);
  text(15, "H D1 H", 5);
  text(15, "H J J", 4);
  text(16, "H", 1);
  text(16, "H  ", 3);
  text(16, "D1 H E1", 7);
  text(16, "O1 H", 4);
  text(16, "H D1", 4);

  accepted_text(recipes, "", 0);
  accepted_text(recipes, times(4096, " "), 0);
  accepted_text(recipes, "O200", 1);
  accepted_text(recipes, "  A1   H F ", 3);
  accepted_text(recipes, "H J H M H F", 6);
  accepted_text(recipes, pairs, 96);
}

void graph_files() {
  const auto refused = [](const std::string &page, std::uint64_t order, const Bytes &file, const Refusal &expected) {
    const auto answer = read_graph(order, file);
    const auto *refusal = std::get_if<Refusal>(&answer);
    expect(refusal && *refusal == expected, page, "a graph file for " + std::to_string(expected.number),
           refusal_or_accepted(answer));
  };
  const auto graph = [](unsigned number, std::uint64_t place) { return Refusal{number, place, Part::graph}; };
  const std::string page = "graphs.md";
  refused(page, 3, Bytes(12), graph(1, 0));
  refused(page, 1000001, Bytes(12), graph(1, 0));
  refused(page, 1000001, {}, graph(2, 0));
  refused(page, 3, file_of({{2, 2}}), graph(4, 0));
  refused(page, 3, file_of({{0, 1}, {2, 2}}), graph(4, 1));
  refused(page, 2, file_of({{2, 2}}), graph(4, 0));
  refused(page, 3, file_of({{1, 3}}), graph(5, 0));
  refused(page, 3, file_of({{1, 9}, {2, 2}}), graph(5, 0));
  refused(page, 3, file_of({{0, 2}, {0, 1}}), graph(6, 1));
  refused(page, 3, file_of({{0, 1}, {0, 1}}), graph(6, 1));
  refused(page, 3, file_of({{1, 2}, {0, 0}}), graph(4, 1));

  const Bytes written = {0, 0, 0, 0, 2, 0, 0, 0, 1, 0, 0, 0, 2, 1, 0, 0};
  const auto answer = read_graph(259, written);
  const auto *accepted = std::get_if<Graph>(&answer);
  expect(accepted && file_of(accepted->edges) == written && accepted->edges[1].second == 258, page, "0-2 and 1-258",
         refusal_or_accepted(answer));
  expect(std::holds_alternative<Graph>(read_graph(0, {})), page, "n = 0 and m = 0", "a refusal");
  expect(std::holds_alternative<Graph>(read_graph(5, {})), page, "n = 5 and m = 0", "a refusal");
}

struct Opening {
  std::string kind;
  std::uint64_t order;
  Ends edges;
  Bytes vertex_records;
  std::optional<Bytes> edge_records;
};

void refused_opening(const std::string &page, const Opening &opening, unsigned number, std::uint64_t place) {
  const auto kind = kind_of(opening.kind);
  const auto answer = open_records(*kind, graph_of(opening.order, opening.edges), opening.vertex_records, opening.edge_records);
  const auto *refusal = std::get_if<Refusal>(&answer);
  expect(refusal && *refusal == Refusal{number, place, Part::sheet}, page, "records for " + std::to_string(number),
         refusal_or_accepted(answer));
}

void accepted_opening(const std::string &page, const Opening &opening, const Weighting &expected) {
  const auto kind = kind_of(opening.kind);
  const auto answer = open_records(*kind, graph_of(opening.order, opening.edges), opening.vertex_records, opening.edge_records);
  const auto *weighting = std::get_if<Weighting>(&answer);
  expect(weighting && *weighting == expected, page, "records", refusal_or_accepted(answer));
}

void records() {
  const Ends one = {{0, 1}};
  const Ends two = {{0, 1}, {1, 2}};
  const std::string page = "records.md";
  refused_opening(page, {"level", 2, {}, Bytes(5), std::nullopt}, 8, 0);
  refused_opening(page, {"presence", 3, two, {0, 2, 2}, Bytes{2, 0}}, 9, 1);
  refused_opening(page, {"presence", 3, two, {1, 1, 1}, Bytes{1, 2}}, 9, 4);
  refused_opening(page, {"presence", 3, two, {0, 1, 1}, Bytes{1, 2}}, 10, 0);
  refused_opening(page, {"level", 2, one, {4, 0, 6, 0}, Bytes{5, 0}}, 10, 0);
  refused_opening(page, {"reversed-level", 2, one, {4, 0, 6, 0}, Bytes{5, 0}}, 10, 0);
  refused_opening("refusals.md", {"presence", 2, {}, {1, 2}, std::nullopt}, 9, 1);
  refused_opening("refusals.md", {"presence", 2, one, {1, 1}, Bytes{2}}, 9, 2);
  refused_opening("refusals.md", {"presence", 2, one, {0, 2}, Bytes{2}}, 9, 1);
  refused_opening("refusals.md", {"presence", 3, two, {1, 0, 1}, Bytes{1, 2}}, 10, 0);
  refused_opening("refusals.md", {"presence", 5, path_of(5), {1, 1, 1, 1, 1}, Bytes{1, 7, 1, 1}}, 9, 6);
  refused_opening("sheets.md", {"reversed-presence", 1, {}, {2}, std::nullopt}, 9, 0);
  const Bytes path_bytes = {5, 0, 2, 0, 7, 0, 7, 0, 1, 0};
  refused_opening("sheets.md", {"level", 5, path_of(5), path_bytes, Bytes{2, 0, 3, 0, 7, 0, 1, 0}}, 10, 1);

  accepted_opening(page, {"level", 2, one, {4, 0, 6, 0}, Bytes{4, 0}}, {{4, 6}, {4}});
  accepted_opening(page, {"level", 2, one, {4, 0, 6, 0}, std::nullopt}, {{4, 6}, {4}});
  accepted_opening(page, {"reversed-level", 2, one, {4, 0, 6, 0}, std::nullopt}, {{4, 6}, {6}});
  accepted_opening(page, {"level", 2, {}, {4, 0, 2, 1}, std::nullopt}, {{4, 258}, {}});
  accepted_opening("kinds.md", {"level", 2, {}, {1, 2, 0xFF, 0xFF}, std::nullopt}, {{513, 65535}, {}});
  accepted_opening("kinds.md", {"classes", 2, {}, {3, 0, 0, 0, 0, 0, 0, 0x80}, std::nullopt}, {{3, 0x80000000}, {}});

  const auto level = kind_of("level");
  const Records closed = close_records(*level, path_sheet().start());
  expect(closed.vertices == path_bytes && closed.edges == Bytes{2, 0, 2, 0, 7, 0, 1, 0}, "sheets.md", "close", "other bytes");
}

void order_of_all() {
  const auto level = kind_of("level");
  const auto number = [&](std::uint64_t order, const Bytes &graph, const Bytes &vertices, const std::string &recipe) {
    const auto answer = evaluate(*level, order, graph, vertices, std::nullopt, recipe);
    const auto *refusal = std::get_if<Refusal>(&answer);
    return refusal ? refusal->number : 0;
  };
  const auto is = [](unsigned said, unsigned expected) {
    expect(said == expected, "refusals.md", "graph, records, recipe in this order", std::to_string(said));
  };
  is(number(3, Bytes(12), Bytes(1), "X"), 1);
  is(number(3, {}, Bytes(1), "X"), 8);
  is(number(3, {}, Bytes(6), "X"), 13);
  is(number(3, {}, Bytes(6), "D1"), 0);
}

}  // namespace

int main() {
  twelve_results();
  passes();
  filters_page();
  rows();
  algebra_page();
  cuts();
  holds();
  pictures();
  texts();
  graph_files();
  records();
  order_of_all();
  std::printf("self-check: %u examples of docs/, %u faults\n", examples, faults);
  return faults == 0 ? 0 : 1;
}
