#include "shapes.hpp"

#include <algorithm>

namespace {

void connect(Shape &shape, std::uint64_t v, std::uint64_t w) {
  if (v != w) shape.edges.emplace(static_cast<std::uint32_t>(std::min(v, w)), static_cast<std::uint32_t>(std::max(v, w)));
}

std::uint64_t small_order(Random &random) { return random.chance(85) ? random.between(2, 24) : random.between(2, 150); }

std::vector<std::uint64_t> shuffled(Random &random, std::uint64_t order) {
  std::vector<std::uint64_t> vertices(order);
  for (std::uint64_t v = 0; v < order; ++v) vertices[v] = v;
  for (std::uint64_t v = order; v > 1; --v) std::swap(vertices[v - 1], vertices[random.under(v)]);
  return vertices;
}

Shape no_edges(Random &random) { return {"vertices without edges", random.pick<std::uint64_t>({0, 1, 1, 2, 3, 10}), {}, {}}; }

Shape path(Random &random) {
  Shape shape{"path", small_order(random), {}, {}};
  const bool in_order = random.chance(60);
  const auto vertices = shuffled(random, shape.order);
  for (std::uint64_t k = 0; k + 1 < shape.order; ++k) {
    if (in_order) connect(shape, k, k + 1);
    else connect(shape, vertices[k], vertices[k + 1]);
  }
  return shape;
}

Shape cycle(Random &random) {
  Shape shape{"cycle", random.between(3, 30), {}, {}};
  for (std::uint64_t v = 0; v < shape.order; ++v) connect(shape, v, (v + 1) % shape.order);
  return shape;
}

Shape tree(Random &random) {
  Shape shape{"tree", small_order(random), {}, {}};
  const auto vertices = shuffled(random, shape.order);
  for (std::uint64_t k = 1; k < shape.order; ++k) connect(shape, vertices[k], vertices[random.under(k)]);
  return shape;
}

Shape star(Random &random) {
  Shape shape{"star", small_order(random), {}, {}};
  const std::uint64_t middle = random.under(shape.order);
  for (std::uint64_t v = 0; v < shape.order; ++v) connect(shape, middle, v);
  return shape;
}

Shape dense(Random &random) {
  Shape shape{"dense", random.between(2, 20), {}, {}};
  const unsigned percent = random.pick({100u, 80u, 50u});
  for (std::uint64_t v = 0; v < shape.order; ++v) {
    for (std::uint64_t w = v + 1; w < shape.order; ++w) {
      if (random.chance(percent)) connect(shape, v, w);
    }
  }
  return shape;
}

// Some vertices have no edges as a rule.
Shape sparse(Random &random) {
  Shape shape{"sparse", small_order(random), {}, {}};
  const std::uint64_t tries = random.under(shape.order + 1);
  for (std::uint64_t k = 0; k < tries; ++k) {
    const std::uint64_t v = random.under(shape.order);
    connect(shape, v, random.under(shape.order));
  }
  return shape;
}

}  // namespace

Shape long_path(std::uint64_t order) {
  Shape shape{"long path", order, {}, {}};
  for (std::uint64_t v = 0; v + 1 < order; ++v) connect(shape, v, v + 1);
  return shape;
}

Shape mesh(Random &random, std::uint64_t width, std::uint64_t height) {
  Shape shape{"mesh", width * height, {}, {}};
  const auto joined = [&] { return !random.chance(12); };
  for (std::uint64_t row = 0; row < height; ++row) {
    for (std::uint64_t column = 0; column < width; ++column) {
      const std::uint64_t v = row * width + column;
      const bool right = column + 1 < width;
      const bool below = row + 1 < height;
      if (right && joined()) connect(shape, v, v + 1);
      if (below && joined()) connect(shape, v, v + width);
      if (!right || !below) continue;
      if (random.chance(50)) connect(shape, v, v + width + 1);
      else connect(shape, v + 1, v + width);
    }
  }
  return shape;
}

Shape picture(std::uint64_t width, std::uint64_t height) {
  Shape shape{"picture", width * height, {}, PictureSize{width, height}};
  for (std::uint64_t v = 0; v < shape.order; ++v) {
    if (v % width + 1 < width) connect(shape, v, v + 1);
    if (v / width + 1 < height) connect(shape, v, v + width);
  }
  return shape;
}

Shape small_shape(Random &random) {
  const std::uint64_t width = random.between(1, 12);
  const std::uint64_t height = random.between(1, 12);
  switch (random.under(11)) {
    case 0: return no_edges(random);
    case 1: return path(random);
    case 2: return cycle(random);
    case 3: return tree(random);
    case 4: return star(random);
    case 5: return dense(random);
    case 6:
    case 7: return sparse(random);
    case 8: return mesh(random, width, height);
    default: return picture(width, height);
  }
}

reference::Bytes file_of(const Shape &shape) {
  reference::Bytes file;
  file.reserve(shape.edges.size() * 8);
  for (const auto &[first, second] : shape.edges) {
    for (const std::uint32_t end : {first, second}) {
      for (unsigned k = 0; k < 4; ++k) file.push_back(static_cast<std::uint8_t>(end >> (8 * k)));
    }
  }
  return file;
}
