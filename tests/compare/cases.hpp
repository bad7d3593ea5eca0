// Random cases. A case depends on its number alone, whatever the compiler: no two random numbers are drawn in one expression
// whose order is open.

#pragma once

#include <cstdint>
#include <optional>
#include <string>
#include <vector>

#include "../reference/evaluator.hpp"

struct PictureSize {
  std::size_t width;
  std::size_t height;
};

struct Case {
  std::uint64_t number = 0;
  std::string shape;                 // of the graph, in words
  std::vector<std::string> damages;  // done after a good case was made

  std::string kind;
  std::uint64_t order = 0;
  reference::Bytes graph;
  reference::Bytes vertices;
  std::optional<reference::Bytes> edges;
  std::string recipe;
  std::optional<PictureSize> picture;  // where the graph is that of a picture

  // For the program: how the recipe is given, and what the output files hold before, if there are any.
  bool recipe_in_file = false;
  std::optional<reference::Records> old_outputs;

  // For the library: a kind number that there is not, and output buffers longer or shorter than they should be.
  std::optional<std::uint32_t> wrong_kind_number;
  int extra_vertex_bytes = 0;
  int extra_edge_bytes = 0;
};

Case make_case(std::uint64_t number);
