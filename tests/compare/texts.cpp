#include "texts.hpp"

#include <algorithm>
#include <vector>

namespace {

constexpr std::size_t longest_text = 4096;
constexpr std::size_t most_words = 96;

std::string times(std::uint64_t count, const std::string &text) {
  std::string repeated;
  for (std::uint64_t k = 0; k < count; ++k) repeated += text;
  return repeated;
}

// The rounds that a filter takes.
std::uint64_t rounds_of(char letter, std::uint64_t size) { return letter == 'A' ? size * (size + 1) : size; }

std::uint64_t any_size(Random &random) {
  if (random.chance(75)) return random.between(1, 4);
  return random.between(1, random.chance(70) ? 20 : 200);
}

class Writer {
 public:
  Writer(Random &random, const TextWishes &wishes)
      : random_(random), wishes_(wishes), rounds_left_((random.chance(10) ? 4000000 : 600000) / (wishes.places + 1) + 8) {}

  std::string text(std::size_t words) {
    std::string text = spaces(20);
    for (std::size_t k = 0; k < words; ++k) {
      const bool last = k + 1 == words;
      if (k > 0) text += " " + spaces(8);
      text += last && held_ ? let_go() : word(last);
    }
    return text + spaces(20);
  }

 private:
  std::string spaces(unsigned percent) { return random_.chance(percent) ? times(random_.between(1, 5), " ") : ""; }

  std::string word(bool last) {
    if (random_.chance(held_ ? 35 : 20)) {
      if (held_) return let_go();
      if (!last) {
        held_ = true;
        return "H";
      }
    }
    return filter();
  }

  std::string let_go() {
    held_ = false;
    return random_.pick<std::string>({"J", "M", "F"});
  }

  // A filter of a size that does not take too long.
  std::string filter() {
    const char letter = wishes_.for_a_picture ? random_.pick({'D', 'E', 'O', 'C'}) : random_.pick({'D', 'E', 'O', 'C', 'A'});
    std::uint64_t size = any_size(random_);
    while (size > 1 && rounds_of(letter, size) > rounds_left_) size /= 2;
    if (wishes_.for_a_picture && (letter == 'O' || letter == 'C')) size = size == 200 ? 200 : (size + 1) / 2 * 2;
    rounds_left_ -= std::min(rounds_left_, rounds_of(letter, size));
    return letter + std::to_string(size);
  }

  Random &random_;
  const TextWishes wishes_;
  std::uint64_t rounds_left_;
  bool held_ = false;
};

std::size_t word_count(Random &random) {
  if (random.chance(6)) return 0;
  if (random.chance(4)) return most_words;
  return random.chance(85) ? random.between(1, 7) : random.between(8, 40);
}

// The places where a word may be put between others: at spaces and at both ends.
std::size_t some_gap(Random &random, const std::string &text) {
  std::vector<std::size_t> gaps = {0, text.size()};
  for (std::size_t k = 0; k < text.size(); ++k) {
    if (text[k] == ' ') gaps.push_back(k);
  }
  return random.pick(gaps);
}

std::string with_word(Random &random, std::string text, const std::string &word) {
  const std::size_t gap = some_gap(random, text);
  return text.insert(gap, " " + word + (random.chance(80) ? " " : ""));
}

std::string padded(Random &random, std::string text, std::size_t length) {
  if (text.size() >= length) return text;
  return text.insert(some_gap(random, text), std::string(length - text.size(), ' '));
}

// Damages.

std::string wrong_word(Random &random, std::string text) {
  static const std::vector<std::string> words = {
      "o3", "d1", "h", "O", "D", "A0", "O0", "O03", "E00", "O3x", "3", "42", "HH", "H1", "JM", "F0", "X", "O+3", "D-1", "C1.5",
      "D1,E1", "D1E1", "*", "@", "@x", "A1H", "O201x", "HJ", "DD1", "O1O", "'", "M M1", "B2", "G", "Q7", "-", "C1;", "O1_", "#",
      // letters and digits of other scripts, in UTF-8
      "A\xD9\xA1", "\xC3\x96", "\xC3\x96" "2", "O\xEF\xBC\x92"};
  return with_word(random, text, random.pick(words));
}

std::string wrong_size(Random &random, std::string text) {
  static const std::vector<std::string> sizes = {
      "201", "201", "201",  "202",   "255",        "256",        "257",
      "456", "999", "1000", "65537", "4294967297", "4294967296", "18446744073709551617"};
  std::string word(1, random.pick({'D', 'E', 'O', 'C', 'A'}));
  if (random.chance(15)) {
    const char digit = random.pick({'0', '9'});
    word += '1' + std::string(random.between(3, 3500), digit);
  } else {
    word += random.pick(sizes);
  }
  if (random.chance(10)) word += 'x';
  return with_word(random, text, word);
}

std::string stray_hold_word(Random &random, std::string text) {
  return with_word(random, text, random.pick<std::string>({"H", "J", "M", "F"}));
}

std::string hold_at_the_end(Random &random, std::string text) {
  text += random.chance(40) ? " H D1" : " H";
  return text + std::string(random.under(4), ' ');
}

// Right up to the 96th word and on from there.
std::string too_many_words(Random &random, std::string) {
  const std::string gap(random.between(1, 3), ' ');
  std::string text;
  if (random.chance(50)) text = times(48, "H" + gap + "F" + gap);
  else text = times(95, "D1" + gap) + (random.chance(50) ? "H" : "E1") + gap;
  return text + random.pick<std::string>({"D1", "J", "M", "H", "H", "X", "D", "O0", "D201", "E201", "E1x", "D1 X", "O200 "});
}

std::string too_long(Random &random, std::string text) {
  return padded(random, text, longest_text + random.pick<std::size_t>({1, 1, 1, 2, 100, 4096, 70000}));
}

std::string barely_short_enough(Random &random, std::string text) { return padded(random, text, longest_text); }

std::string some_byte_replaced(Random &random, std::string text) {
  if (text.empty()) return "\t";
  const std::size_t place = random.under(text.size());
  text[place] = static_cast<char>(random.byte());
  return text;
}

std::string unusual_byte(Random &random, std::string text) {
  const char byte = random.pick({'\0', '\t', '\n', '\r', '\v', '\x7F', '\x80', '\xA0', '\xFF', '\x1F', '!', '@'});
  return text.insert(random.under(text.size() + 1), 1, byte);
}

std::string space_replaced(Random &random, std::string text) {
  const std::size_t gap = some_gap(random, text);
  const char byte = random.pick({'\t', '\t', '\n', '\0', '\v', '\xA0', '_'});
  if (gap < text.size() && text[gap] == ' ') text[gap] = byte;
  else text.insert(gap, 1, byte);
  return text;
}

std::string leading_zero(Random &random, std::string text) {
  const std::size_t letter = text.find_first_of("DEOCA", random.under(text.size() + 1));
  if (letter == std::string::npos) return with_word(random, text, "O03");
  return text.insert(letter + 1, random.pick<std::string>({"0", "0", "00"}));
}

std::string newline_at_the_end(Random &, std::string text) { return text + "\n"; }

std::string cut_off(Random &random, std::string text) { return text.substr(0, random.under(text.size() + 1)); }

std::string byte_taken_out(Random &random, std::string text) {
  return text.empty() ? text : text.erase(random.under(text.size()), 1);
}

const std::vector<TextDamage> damages = {
    {wrong_word, "a wrong word"},
    {wrong_word, "a wrong word"},
    {wrong_size, "a wrong size"},
    {wrong_size, "a wrong size"},
    {stray_hold_word, "one more of H, J, M, F"},
    {stray_hold_word, "one more of H, J, M, F"},
    {hold_at_the_end, "a hold at the end"},
    {too_many_words, "97 words"},
    {too_many_words, "97 words"},
    {too_long, "too long a text"},
    {barely_short_enough, "a text of 4,096 bytes"},
    {some_byte_replaced, "a byte of the text replaced"},
    {unusual_byte, "an unusual byte in the text"},
    {space_replaced, "a space of the text replaced"},
    {leading_zero, "a leading zero"},
    {newline_at_the_end, "a newline at the end of the text"},
    {cut_off, "a text cut off"},
    {byte_taken_out, "a byte of the text taken out"},
};

}  // namespace

std::string right_text(Random &random, const TextWishes &wishes) {
  const std::string text = Writer(random, wishes).text(word_count(random));
  return random.chance(2) ? padded(random, text, longest_text) : text;
}

std::string text_of_large_size(Random &random, std::uint64_t size) {
  const std::string word = random.pick<std::string>({"D", "E", "O", "C", "O", "C"}) + std::to_string(size);
  const std::string other =
      random.pick<std::string>({"A1", "A40", "D1", "E1", "D150", "E150", "O2", "C2", "H J", "O199", "C199"});
  if (random.chance(60)) return word;
  return random.chance(50) ? word + ' ' + other : other + ' ' + word;
}

const TextDamage &pick_text_damage(Random &random) { return random.pick(damages); }
