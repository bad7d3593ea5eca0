// Random numbers that are the same on every machine (splitmix64).

#pragma once

#include <cstdint>
#include <initializer_list>
#include <iterator>
#include <vector>

class Random {
 public:
  explicit Random(std::uint64_t seed) : state_(seed * 0x9E3779B97F4A7C15u + 1) {}

  std::uint64_t next() {
    state_ += 0x9E3779B97F4A7C15u;
    std::uint64_t z = state_;
    z = (z ^ (z >> 30)) * 0xBF58476D1CE4E5B9u;
    z = (z ^ (z >> 27)) * 0x94D049BB133111EBu;
    return z ^ (z >> 31);
  }

  // Some number under `bound`, which is not 0.
  std::uint64_t under(std::uint64_t bound) { return next() % bound; }

  std::uint64_t between(std::uint64_t least, std::uint64_t most) { return least + under(most - least + 1); }

  bool chance(unsigned percent) { return under(100) < percent; }

  std::uint8_t byte() { return static_cast<std::uint8_t>(next()); }

  template <class Item>
  Item pick(std::initializer_list<Item> items) {
    return items.begin()[under(items.size())];
  }

  template <class Item>
  const Item &pick(const std::vector<Item> &items) {
    return items[under(items.size())];
  }

 private:
  std::uint64_t state_;
};
