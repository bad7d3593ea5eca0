// Running the program `evaluate` on a case.

#pragma once

#include <optional>
#include <string>
#include <vector>

#include "cases.hpp"

struct ProgramRun {
  int exit_status = -1;
  int signal = 0;  // that ended it, or 0
  std::string out;
  std::string err;
  // The output files afterwards; none where there is no such file.
  std::optional<reference::Bytes> vertices;
  std::optional<reference::Bytes> edges;
};

// The input files of a case in a folder, and the arguments that go with them.
std::vector<std::string> write_inputs(const Case &given, const std::string &folder);

ProgramRun run_program(const std::string &program, const Case &given, const std::string &folder);

// What is not as the reference's answer asks.
std::optional<std::string> disagreement(const ProgramRun &run, const Case &given,
                                        const reference::Answer<reference::Records> &expected);
