// Flat filters on pictures, as on a plain pixel grid: each pixel with its neighbours up, down, left and right inside the picture.
// Nothing here knows of graphs. An opening of size k is k erosions and then k dilations, a closing the other way round.

#pragma once

#include <algorithm>
#include <cstddef>
#include <cstdint>
#include <vector>

namespace grid {

struct Picture {
  std::size_t width = 0;
  std::size_t height = 0;
  std::vector<std::uint32_t> pixels;  // row by row

  std::uint32_t at(std::size_t row, std::size_t column) const { return pixels[row * width + column]; }
};

// The values of a pixel and its neighbours.
inline std::vector<std::uint32_t> cross(const Picture &picture, std::size_t row, std::size_t column) {
  std::vector<std::uint32_t> values = {picture.at(row, column)};
  if (row > 0) values.push_back(picture.at(row - 1, column));
  if (row + 1 < picture.height) values.push_back(picture.at(row + 1, column));
  if (column > 0) values.push_back(picture.at(row, column - 1));
  if (column + 1 < picture.width) values.push_back(picture.at(row, column + 1));
  return values;
}

enum class Extreme { largest, smallest };

// Each pixel becomes the largest or smallest value in its cross, `times` times over.
inline Picture sweep(Picture picture, Extreme extreme, unsigned times) {
  for (unsigned time = 0; time < times; ++time) {
    Picture made{picture.width, picture.height, {}};
    for (std::size_t row = 0; row < picture.height; ++row) {
      for (std::size_t column = 0; column < picture.width; ++column) {
        const auto values = cross(picture, row, column);
        made.pixels.push_back(extreme == Extreme::largest ? *std::max_element(values.begin(), values.end())
                                                          : *std::min_element(values.begin(), values.end()));
      }
    }
    picture = made;
  }
  return picture;
}

inline Picture dilation(const Picture &picture, unsigned size) { return sweep(picture, Extreme::largest, size); }
inline Picture erosion(const Picture &picture, unsigned size) { return sweep(picture, Extreme::smallest, size); }
inline Picture opening(const Picture &picture, unsigned size) { return dilation(erosion(picture, size), size); }
inline Picture closing(const Picture &picture, unsigned size) { return erosion(dilation(picture, size), size); }

// The larger or smaller of two pictures, pixel by pixel.
inline Picture combine(const Picture &one, const Picture &other, Extreme extreme) {
  Picture made{one.width, one.height, {}};
  for (std::size_t k = 0; k < one.pixels.size(); ++k) {
    made.pixels.push_back(extreme == Extreme::largest ? std::max(one.pixels[k], other.pixels[k])
                                                      : std::min(one.pixels[k], other.pixels[k]));
  }
  return made;
}

}  // namespace grid
