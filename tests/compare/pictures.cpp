#include "pictures.hpp"

#include <algorithm>

#include "../reference/grid.hpp"

namespace {

using grid::Extreme;
using grid::Picture;
using reference::Bytes;
using reference::Recipe;
using reference::Word;

bool is_known_to_the_grid(const Word &word) {
  if (word.letter == 'O' || word.letter == 'C') return word.size % 2 == 0;
  return word.letter != 'A';
}

Picture run(const Recipe &recipe, Picture picture) {
  Picture held;
  for (const Word &word : recipe) {
    switch (word.letter) {
      case 'D': picture = grid::dilation(picture, word.size); break;
      case 'E': picture = grid::erosion(picture, word.size); break;
      case 'O': picture = grid::opening(picture, word.size / 2); break;
      case 'C': picture = grid::closing(picture, word.size / 2); break;
      case 'H': held = picture; break;
      case 'J': picture = grid::combine(picture, held, Extreme::largest); break;
      case 'M': picture = grid::combine(picture, held, Extreme::smallest); break;
      default: break;
    }
  }
  return picture;
}

std::size_t reversals_of(const std::string &kind) { return static_cast<std::size_t>(std::count(kind.begin(), kind.end(), '-')); }

// A picture's records as plain numbers, and back. A reversed kind is the negative of the picture.
class Development {
 public:
  explicit Development(const Case &given)
      : size_(*given.picture),
        width_(given.vertices.size() / (size_.width * size_.height)),
        negative_(reversals_of(given.kind) % 2 == 1) {}

  // One picture of levels or presences; for classes one of 0 and 1 for each class.
  std::vector<Picture> pictures(const Bytes &records) const {
    std::vector<Picture> made(width_ == 4 ? 32 : 1, Picture{size_.width, size_.height, {}});
    for (std::size_t k = 0; k < records.size(); k += width_) {
      const std::uint32_t number = turned(number_at(records, k));
      for (std::size_t plane = 0; plane < made.size(); ++plane) {
        made[plane].pixels.push_back(width_ == 4 ? number >> plane & 1 : number);
      }
    }
    return made;
  }

  Bytes records(const std::vector<Picture> &pictures) const {
    Bytes made;
    for (std::size_t pixel = 0; pixel < size_.width * size_.height; ++pixel) {
      std::uint32_t number = 0;
      for (std::size_t plane = 0; plane < pictures.size(); ++plane) number |= pictures[plane].pixels[pixel] << plane;
      for (std::size_t k = 0; k < width_; ++k) made.push_back(static_cast<std::uint8_t>(turned(number) >> (8 * k)));
    }
    return made;
  }

 private:
  std::uint32_t number_at(const Bytes &records, std::size_t start) const {
    std::uint32_t number = 0;
    for (std::size_t k = width_; k-- > 0;) number = number << 8 | records[start + k];
    return number;
  }

  std::uint32_t turned(std::uint32_t number) const {
    const std::uint32_t highest = width_ == 1 ? 1 : width_ == 2 ? 65535 : 0xFFFFFFFF;
    return negative_ ? highest - number : number;
  }

  PictureSize size_;
  std::size_t width_;
  bool negative_;
};

}  // namespace

std::optional<Bytes> vertices_by_grid(const Case &given) {
  if (!given.picture || !given.damages.empty() || given.order < 2) return std::nullopt;
  const auto recipe = std::get<Recipe>(reference::read_recipe(given.recipe));
  if (!std::all_of(recipe.begin(), recipe.end(), is_known_to_the_grid)) return std::nullopt;

  const Development development(given);
  std::vector<Picture> pictures = development.pictures(given.vertices);
  for (Picture &picture : pictures) picture = run(recipe, picture);
  return development.records(pictures);
}
