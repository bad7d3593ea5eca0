// Whole files, to and from memory.

#pragma once

#include <fstream>
#include <iterator>
#include <optional>
#include <string>

namespace files {

// The bytes of a file; none where it cannot be read. `Buffer` is a string or a vector of bytes.
template <class Buffer>
std::optional<Buffer> read(const std::string &path) {
  std::ifstream file(path, std::ios::binary);
  if (!file) return std::nullopt;
  Buffer bytes(std::istreambuf_iterator<char>(file), {});
  return file.bad() ? std::nullopt : std::optional<Buffer>(std::move(bytes));
}

template <class Buffer>
bool write(const std::string &path, const Buffer &bytes) {
  std::ofstream file(path, std::ios::binary | std::ios::trunc);
  file.write(reinterpret_cast<const char *>(bytes.data()), static_cast<std::streamsize>(bytes.size()));
  file.close();
  return static_cast<bool>(file);
}

}  // namespace files
