#include "cases.hpp"

#include <algorithm>

#include "random.hpp"
#include "shapes.hpp"
#include "texts.hpp"

namespace {

using reference::Bytes;
using reference::Weight;
using reference::Weights;

constexpr std::size_t edge_bytes = 8;

// Weights.

// A way to pick weights: from a few, or any. Each case has one.
class Palette {
 public:
  Palette(Random &random, std::size_t width) : random_(random), width_(width), style_(random.under(6)), percent_(percent()) {}

  Weight weight() {
    if (width_ == 1) return random_.chance(percent_);
    return width_ == 2 ? level() : classes();
  }

  Weights weights(std::uint64_t count) {
    Weights made(count);
    std::generate(made.begin(), made.end(), [this] { return weight(); });
    return made;
  }

 private:
  unsigned percent() { return random_.pick({0u, 10u, 30u, 50u, 70u, 90u, 100u}); }

  Weight level() {
    switch (style_) {
      case 0: return percent_;
      case 1: return random_.chance(percent_) ? 65535 : 0;
      case 2: return random_.pick<Weight>({0, 1, 255, 256, 257, 32767, 32768, 65279, 65280, 65534, 65535});
      case 3: return static_cast<Weight>(random_.under(65536));
      default: return static_cast<Weight>(random_.under(10));
    }
  }

  Weight classes() {
    const auto any = [this] { return static_cast<Weight>(random_.next()); };
    switch (style_) {
      case 0: return random_.chance(percent_) ? 0xFFFFFFFF : 0;
      case 1: return Weight{1} << random_.under(32);
      case 2: return any() & any() & any();
      case 3: return any() | any() | any();
      case 4: return static_cast<Weight>(random_.under(8));
      default: return any();
    }
  }

  Random &random_;
  std::size_t width_;
  std::uint64_t style_;
  unsigned percent_;
};

Bytes records_of(const Weights &weights, std::size_t width) {
  Bytes records;
  records.reserve(weights.size() * width);
  for (const Weight weight : weights) {
    for (std::size_t k = 0; k < width; ++k) records.push_back(static_cast<std::uint8_t>(weight >> (8 * k)));
  }
  return records;
}

std::size_t width_of(const Case &made) { return reference::kind_of(made.kind)->width(); }

std::string some_kind(Random &random) {
  const std::uint64_t turns = random.chance(45) ? 0 : random.chance(65) ? 1 : random.chance(70) ? 2 : random.between(3, 9);
  std::string kind = random.pick<std::string>({"presence", "level", "classes"});
  for (std::uint64_t k = 0; k < turns; ++k) kind = "reversed-" + kind;
  return kind;
}

// Edge weights below the weights of both ends.
Weights lawful_edges(Random &random, Palette &palette, const reference::Kind &kind, const Shape &shape, const Weights &vertices) {
  const bool at_the_limit = random.chance(40);
  Weights made;
  for (const auto &[first, second] : shape.edges) {
    const Weight limit = kind.meet(vertices[first], vertices[second]);
    made.push_back(at_the_limit ? limit : kind.meet(limit, palette.weight()));
  }
  return made;
}

void put_weights(Random &random, Case &made, const Shape &shape, bool edges_given) {
  const auto kind = reference::kind_of(made.kind);
  Palette palette(random, kind->width());
  const Weights vertices = palette.weights(shape.order);
  made.vertices = records_of(vertices, kind->width());
  if (edges_given) made.edges = records_of(lawful_edges(random, palette, *kind, shape, vertices), kind->width());
}

void put_shape(Case &made, const Shape &shape) {
  made.shape = shape.name;
  made.order = shape.order;
  made.graph = file_of(shape);
  made.picture = shape.picture;
}

// Damages to graphs and records.

std::size_t edge_count(const Case &made) { return made.graph.size() / edge_bytes; }

void put_end(Case &made, std::size_t record, std::size_t end, std::uint32_t number) {
  for (std::size_t k = 0; k < 4; ++k) {
    made.graph[record * edge_bytes + end * 4 + k] = static_cast<std::uint8_t>(number >> (8 * k));
  }
}

std::uint32_t end_of(const Case &made, std::size_t record, std::size_t end) {
  std::uint32_t number = 0;
  for (std::size_t k = 4; k-- > 0;) number = number << 8 | made.graph[record * edge_bytes + end * 4 + k];
  return number;
}

// Does something to some record, if there is one.
template <class Change>
void at_some_record(Random &random, Case &made, Change change) {
  if (edge_count(made) > 0) change(random.under(edge_count(made)));
}

void change_length(Random &random, Bytes &bytes, std::size_t most) {
  const std::size_t step = random.between(1, most);
  if (random.chance(50)) bytes.resize(bytes.size() + step, random.byte());
  else bytes.resize(bytes.size() - std::min(bytes.size(), step));
}

void flip_a_bit(Random &random, Bytes &bytes) {
  if (!bytes.empty()) bytes[random.under(bytes.size())] ^= static_cast<std::uint8_t>(1u << random.under(8));
}

void give_edges(Case &made) {
  if (made.edges) return;
  const auto kind = reference::kind_of(made.kind);
  made.edges = records_of(Weights(edge_count(made), kind->lowest()), kind->width());
}

void wrong_graph_length(Random &random, Case &made) { change_length(random, made.graph, edge_bytes - 1); }

void too_many_vertices(Random &random, Case &made) {
  made.order = random.pick<std::uint64_t>({1000001, 1000001, 1000002, 4294967295, 4294967296, 4294967299, UINT64_MAX});
}

void other_order(Random &random, Case &made) {
  if (made.order > 0 && random.chance(60)) --made.order;
  else if (random.chance(80)) ++made.order;
  else made.order = random.pick<std::uint64_t>({0, 1, 2, 1000000});
}

void ends_exchanged(Random &random, Case &made) {
  at_some_record(random, made, [&](std::size_t record) {
    const std::uint32_t first = end_of(made, record, 0);
    put_end(made, record, 0, end_of(made, record, 1));
    put_end(made, record, 1, first);
  });
}

void ends_equal(Random &random, Case &made) {
  at_some_record(random, made, [&](std::size_t record) {
    const std::size_t kept = random.under(2);
    if (random.chance(30)) put_end(made, record, kept, static_cast<std::uint32_t>(made.order));
    put_end(made, record, 1 - kept, end_of(made, record, kept));
  });
}

void end_out_of_range(Random &random, Case &made) {
  at_some_record(random, made, [&](std::size_t record) {
    const auto order = static_cast<std::uint32_t>(made.order);
    put_end(made, record, 1,
            random.pick<std::uint32_t>({order, order, order + 1, order + 1000, 0x7FFFFFFF, 0x80000000, UINT32_MAX}));
    if (random.chance(20)) put_end(made, record, 0, random.pick<std::uint32_t>({order, order + 2, 0x80000000, UINT32_MAX}));
  });
}

void record_repeated(Random &random, Case &made) {
  at_some_record(random, made, [&](std::size_t record) {
    const auto start = made.graph.begin() + static_cast<std::ptrdiff_t>(record * edge_bytes);
    const Bytes copy(start, start + edge_bytes);
    made.graph.insert(start, copy.begin(), copy.end());
  });
}

void records_exchanged(Random &random, Case &made) {
  at_some_record(random, made, [&](std::size_t record) {
    const std::size_t other = random.under(edge_count(made));
    const auto start = made.graph.begin();
    std::swap_ranges(start + static_cast<std::ptrdiff_t>(record * edge_bytes),
                     start + static_cast<std::ptrdiff_t>((record + 1) * edge_bytes),
                     start + static_cast<std::ptrdiff_t>(other * edge_bytes));
  });
}

void record_taken_out(Random &random, Case &made) {
  at_some_record(random, made, [&](std::size_t record) {
    const auto start = made.graph.begin() + static_cast<std::ptrdiff_t>(record * edge_bytes);
    made.graph.erase(start, start + edge_bytes);
  });
}

void record_replaced(Random &random, Case &made) {
  at_some_record(random, made, [&](std::size_t record) {
    const std::uint64_t order = std::min<std::uint64_t>(made.order, 1000000);  // another damage may have made it any number
    put_end(made, record, 0, static_cast<std::uint32_t>(random.under(order + 1)));
    put_end(made, record, 1, static_cast<std::uint32_t>(random.under(order + 2)));
  });
}

void graph_bit(Random &random, Case &made) { flip_a_bit(random, made.graph); }

void wrong_vertex_length(Random &random, Case &made) { change_length(random, made.vertices, 2 * width_of(made)); }

void wrong_edge_length(Random &random, Case &made) {
  give_edges(made);
  change_length(random, *made.edges, 2 * width_of(made));
}

void empty_records(Random &random, Case &made) {
  if (random.chance(50)) made.vertices.clear();
  else made.edges = Bytes();
}

void no_presence(Random &random, Case &made) {
  const bool at_an_edge = random.chance(50);
  if (at_an_edge) give_edges(made);
  Bytes &records = at_an_edge ? *made.edges : made.vertices;
  if (!records.empty())
    records[random.under(records.size())] = random.pick<std::uint8_t>({2, 2, 3, 128, 254, 255, random.byte()});
}

// Edge weights that are the highest value, or any.
void edge_above_an_end(Random &random, Case &made) {
  give_edges(made);
  const auto kind = reference::kind_of(made.kind);
  const std::size_t count = made.edges->size() / kind->width();
  if (count == 0) return;
  const Weight weight = random.chance(60) ? kind->highest() : Palette(random, kind->width()).weight();
  const Bytes record = records_of({weight}, kind->width());
  const std::size_t times = random.between(1, 3);
  for (std::size_t k = 0; k < times; ++k) {
    std::copy(record.begin(), record.end(),
              made.edges->begin() + static_cast<std::ptrdiff_t>(random.under(count) * kind->width()));
  }
}

void record_bit(Random &random, Case &made) {
  if (made.edges && random.chance(60)) flip_a_bit(random, *made.edges);
  else flip_a_bit(random, made.vertices);
}

struct Damage {
  void (*make)(Random &random, Case &made);
  const char *name;
};

const std::vector<Damage> graph_damages = {
    {wrong_graph_length, "a graph file of wrong length"},
    {too_many_vertices, "too many vertices"},
    {other_order, "another number of vertices"},
    {ends_exchanged, "the ends of an edge exchanged"},
    {ends_equal, "an edge with equal ends"},
    {end_out_of_range, "an end out of range"},
    {record_repeated, "an edge repeated"},
    {records_exchanged, "two edges exchanged"},
    {record_taken_out, "an edge taken out"},
    {record_replaced, "an edge replaced"},
    {graph_bit, "a bit of the graph file turned"},
};

const std::vector<Damage> record_damages = {
    {wrong_vertex_length, "vertex records of wrong length"},
    {wrong_edge_length, "edge records of wrong length"},
    {empty_records, "no records"},
    {no_presence, "a byte that is no presence"},
    {no_presence, "a byte that is no presence"},
    {edge_above_an_end, "an edge above an end"},
    {edge_above_an_end, "an edge above an end"},
    {record_bit, "a bit of a record turned"},
};

void damage(Random &random, Case &made) {
  const std::uint64_t where = random.under(100);
  if (where < 42) {
    const TextDamage &picked = pick_text_damage(random);
    made.recipe = picked.make(random, made.recipe);
    made.damages.emplace_back(picked.name);
    return;
  }
  const Damage &picked = random.pick(where < 70 ? graph_damages : record_damages);
  picked.make(random, made);
  made.damages.emplace_back(picked.name);
}

std::size_t damage_count(Random &random) {
  if (random.chance(40)) return 0;
  return random.chance(65) ? 1 : random.between(2, 4);
}

// What the two interfaces need besides.

// A text goes through an argument where a shell would take it as it is.
bool needs_a_file(const std::string &text) {
  const auto unusual = [](char byte) { return byte < ' ' || byte > '~'; };
  return text.size() > 5000 || (!text.empty() && text[0] == '@') || std::any_of(text.begin(), text.end(), unusual);
}

Bytes some_bytes(Random &random, std::size_t length) {
  Bytes bytes(length);
  std::generate(bytes.begin(), bytes.end(), [&] { return random.byte(); });
  return bytes;
}

void put_surroundings(Random &random, Case &made) {
  made.recipe_in_file = needs_a_file(made.recipe) || random.chance(40);
  if (random.chance(50)) made.old_outputs = {some_bytes(random, random.under(300)), some_bytes(random, random.under(300))};
  if (random.chance(2)) made.wrong_kind_number = random.pick<std::uint32_t>({6, 7, 99, 0x80000000, UINT32_MAX});
  if (random.chance(8)) made.extra_vertex_bytes = random.pick({-4, -1, 1, 2, 4});
  if (random.chance(8)) made.extra_edge_bytes = random.pick({-4, -1, 1, 2, 4});
}

// Large cases.

void large_mesh(Random &random, Case &made) {
  const Shape shape = mesh(random, 400, 250);
  put_shape(made, shape);
  made.kind = some_kind(random);
  put_weights(random, made, shape, random.chance(50));
  made.recipe = random.pick<std::string>({"C1 O1 H E2 J", "A2", "O3 H D1 M C2", "D2 E1 O2"});
}

void large_mesh_with_a_fault(Random &random, Case &made) {
  large_mesh(random, made);
  const Damage &picked = random.pick(graph_damages);
  picked.make(random, made);
  made.damages.emplace_back(picked.name);
}

void large_picture(Random &random, Case &made) {
  const Shape shape = picture(300, 200);
  put_shape(made, shape);
  made.kind = random.pick<std::string>({"level", "reversed-level"});
  put_weights(random, made, shape, false);
  made.recipe = random.pick<std::string>({"O4 C2", "D2 H E3 J", "C6 O2", "E5 D5"});
}

void most_vertices(Random &random, Case &made) {
  made.shape = "1,000,000 vertices without edges";
  made.order = 1000000;
  made.kind = some_kind(random);
  made.vertices = Bytes(made.order * width_of(made), 1);
  made.recipe = "H D1 J H E1 M";
}

void too_many_edges(Random &random, Case &made) {
  made.shape = "4,000,001 edges";
  made.order = random.pick<std::uint64_t>({10, 1000000});
  made.kind = some_kind(random);
  made.graph = Bytes(4000001 * edge_bytes);
  made.recipe = "X";
}

// Each vertex with the next four, and vertex 0 with ten more.
void most_edges(Random &random, Case &made) {
  made.shape = "1,000,000 vertices and 4,000,000 edges";
  made.order = 1000000;
  made.kind = some_kind(random);
  made.graph = Bytes(4000000 * edge_bytes);
  std::size_t record = 0;
  for (std::uint32_t v = 0; v < made.order; ++v) {
    for (std::uint32_t w = v + 1; w <= v + (v == 0 ? 14 : 4) && w < made.order; ++w) {
      put_end(made, record, 0, v);
      put_end(made, record, 1, w);
      ++record;
    }
  }
  Palette palette(random, width_of(made));
  made.vertices = records_of(palette.weights(made.order), width_of(made));
  made.recipe = "O1";
}

void put_large(Random &random, Case &made, std::uint64_t turn) {
  switch (turn % 6) {
    case 0: return large_mesh(random, made);
    case 1: return large_picture(random, made);
    case 2: return most_vertices(random, made);
    case 3: return too_many_edges(random, made);
    case 4: return large_mesh_with_a_fault(random, made);
    default: return most_edges(random, made);
  }
}

void put_small(Random &random, Case &made) {
  const Shape shape = small_shape(random);
  put_shape(made, shape);
  made.kind = some_kind(random);
  put_weights(random, made, shape, random.chance(50));
  const bool as_on_a_grid = shape.picture && random.chance(75);
  made.recipe = right_text(random, {shape.order + 2 * shape.edges.size(), as_on_a_grid});
  const std::size_t count = damage_count(random);
  for (std::size_t k = 0; k < count; ++k) damage(random, made);
}

// A long path with a few runs of highest weights on lowest ones, or the other way round, and a filter of a size near the length
// of the runs: on small graphs large sizes leave nothing to see.
void put_long(Random &random, Case &made) {
  const std::uint64_t order = random.between(250, 700);
  const std::uint64_t size = random.chance(40) ? random.between(198, 200) : random.between(20, 200);
  put_shape(made, long_path(order));
  made.kind = some_kind(random);
  const auto kind = reference::kind_of(made.kind);
  const bool turned = random.chance(50);
  Weights vertices(order, turned ? kind->highest() : kind->lowest());
  const std::uint64_t runs = random.between(1, 3);
  for (std::uint64_t k = 0; k < runs; ++k) {
    const std::uint64_t length = random.chance(60) ? random.between(size - 1, size + 1) : random.between(1, 8);
    const auto start = vertices.begin() + static_cast<std::ptrdiff_t>(random.under(order - length));
    std::fill_n(start, length, turned ? kind->lowest() : kind->highest());
  }
  made.vertices = records_of(vertices, kind->width());
  made.recipe = text_of_large_size(random, size);
}

constexpr std::uint64_t large_every = 500;

}  // namespace

Case make_case(std::uint64_t number) {
  Random random(number);
  Case made;
  made.number = number;
  if (number % large_every == large_every / 2) put_large(random, made, number / large_every);
  else if (random.chance(7)) put_long(random, made);
  else put_small(random, made);
  put_surroundings(random, made);
  return made;
}
