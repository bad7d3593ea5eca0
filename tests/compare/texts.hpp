// Random recipe texts, right and wrong.

#pragma once

#include <cstdint>
#include <string>

#include "random.hpp"

struct TextWishes {
  std::uint64_t places;  // vertices and edges, which each round goes over
  bool for_a_picture;    // only words that a plain grid has too
};

std::string right_text(Random &random, const TextWishes &wishes);

// A filter of this size, alone or with another word.
std::string text_of_large_size(Random &random, std::uint64_t size);

// Each makes one fault in a text, or tries to; the second member says which in words.
struct TextDamage {
  std::string (*make)(Random &random, std::string text);
  const char *name;
};

const TextDamage &pick_text_damage(Random &random);
