// Random graphs.

#pragma once

#include <cstdint>
#include <set>
#include <string>
#include <utility>
#include <vector>

#include "cases.hpp"
#include "random.hpp"

struct Shape {
  std::string name;
  std::uint64_t order = 0;
  // First end under second end; a set of pairs is in the order of a graph file.
  std::set<std::pair<std::uint32_t, std::uint32_t>> edges;
  std::optional<PictureSize> picture;
};

Shape small_shape(Random &random);

Shape long_path(std::uint64_t order);

// A grid with random diagonals and random gaps.
Shape mesh(Random &random, std::uint64_t width, std::uint64_t height);

// The four-neighbour graph of a picture.
Shape picture(std::uint64_t width, std::uint64_t height);

reference::Bytes file_of(const Shape &shape);
