// Compares the program and the C library with the reference evaluator, case by case, and the reference with the grid evaluator.
//
//   compare [--cases COUNT] [--start NUMBER] [--program PATH] [--library] [--save FOLDER] [--work FOLDER]
//
// The first case that does not agree is saved and ends the comparison with status 1.

#include <cstdio>
#include <cstdlib>
#include <filesystem>
#include <iostream>
#include <map>
#include <sstream>
#include <stdexcept>

#include "../reference/files.hpp"
#include "cases.hpp"
#include "library.hpp"
#include "pictures.hpp"
#include "program.hpp"

namespace {

using reference::Answer;
using reference::Records;
using reference::Refusal;

struct Options {
  std::uint64_t cases = 3000;
  std::uint64_t start = 1;
  std::optional<std::string> program;
  bool library = false;
  std::string save = "failed";
  std::string work = ".";
};

Options options_of(int count, char **arguments) {
  Options options;
  for (int k = 1; k < count; ++k) {
    const std::string option = arguments[k];
    if (option == "--library") {
      options.library = true;
      continue;
    }
    if (++k == count) throw std::runtime_error("what is wanted by " + option + "?");
    const std::string value = arguments[k];
    if (option == "--cases") options.cases = std::stoull(value);
    else if (option == "--start") options.start = std::stoull(value);
    else if (option == "--program") options.program = value;
    else if (option == "--save") options.save = value;
    else if (option == "--work") options.work = value;
    else throw std::runtime_error("no option " + option);
  }
  if (options.library && !library_is_there()) throw std::runtime_error("the C library is not linked");
  return options;
}

// How many agreed.
struct Tally {
  std::uint64_t program = 0;
  std::uint64_t graph_checks = 0;
  std::uint64_t recipe_readings = 0;
  std::uint64_t filters = 0;
  std::uint64_t grid = 0;
  std::map<unsigned, std::uint64_t> numbers;  // of refusals; 0 for acceptance
  std::map<std::string, std::uint64_t> shapes;
};

std::string spelled(const Answer<Records> &answer) {
  if (const auto *refusal = std::get_if<Refusal>(&answer)) {
    return "refused " + std::to_string(refusal->number) + " " + std::to_string(refusal->place) + ", part " +
           name_of(refusal->part);
  }
  return "accepted";
}

std::string spelled(const ProgramRun &run) {
  return "status " + std::to_string(run.exit_status) + "\nstdout: " + run.out + "\nstderr: " + run.err;
}

std::string description_of(const Case &given) {
  std::ostringstream text;
  text << "case " << given.number << ": " << given.kind << ", " << given.shape << ", n = " << given.order
       << ", m = " << given.graph.size() / 8 << ", edge records " << (given.edges ? "given" : "absent") << ", a recipe of "
       << given.recipe.size() << " bytes\n";
  for (const std::string &damage : given.damages) text << "damage: " << damage << '\n';
  return text.str();
}

void save_outputs(const std::string &folder, const std::string &whose, const Records &records) {
  files::write(folder + "/" + whose + "_vertices", records.vertices);
  files::write(folder + "/" + whose + "_edges", records.edges);
}

// Saves a case that does not agree, and prints it.
class Failure {
 public:
  Failure(const Options &options, const Case &given, const Answer<Records> &expected)
      : folder_(options.save + "/case-" + std::to_string(given.number)) {
    std::filesystem::create_directories(folder_);
    std::string arguments;
    for (const std::string &argument : write_inputs(given, folder_)) arguments += argument + '\n';
    files::write(folder_ + "/arguments", arguments);
    if (const auto *records = std::get_if<Records>(&expected)) save_outputs(folder_, "reference", *records);
    report_ = description_of(given) + "reference: " + spelled(expected) + '\n';
  }

  void add(const std::string &line) { report_ += line + '\n'; }

  void add_outputs(const ProgramRun &run) {
    save_outputs(folder_, "program", {run.vertices.value_or(reference::Bytes()), run.edges.value_or(reference::Bytes())});
  }

  void print() const {
    files::write(folder_ + "/report", report_);
    std::cout << "NOT AGREED\n" << report_ << "saved in " << folder_ << '\n';
  }

 private:
  std::string folder_;
  std::string report_;
};

class Comparison {
 public:
  explicit Comparison(const Options &options) : options_(options) {}

  bool agrees(const Case &given) {
    const auto kind = reference::kind_of(given.kind);
    const auto expected = reference::evaluate(*kind, given.order, given.graph, given.vertices, given.edges, given.recipe);
    const auto *refusal = std::get_if<Refusal>(&expected);
    ++tally_.numbers[refusal ? refusal->number : 0];
    ++tally_.shapes[given.shape];
    return grid_agrees(given, expected) && program_agrees(given, expected) && library_agrees(given, expected);
  }

  void print() const {
    const auto line = [](const char *what, std::uint64_t count) {
      std::printf("%-26s %llu agreed\n", what, static_cast<unsigned long long>(count));
    };
    if (options_.program) line("program evaluate:", tally_.program);
    if (options_.library) {
      line("evaluator_filter:", tally_.filters);
      line("evaluator_check_graph:", tally_.graph_checks);
      line("evaluator_read_recipe:", tally_.recipe_readings);
    }
    line("reference and grid:", tally_.grid);
    std::printf("accepted: %llu; refused by number:", static_cast<unsigned long long>(count_of(0)));
    for (const unsigned number : numbers_that_come) {
      std::printf(" %u: %llu%s", number, static_cast<unsigned long long>(count_of(number)),
                  number == numbers_that_come.back() ? "\n" : ",");
    }
    std::printf("graphs:");
    for (const auto &[shape, count] : tally_.shapes)
      std::printf(" %s %llu;", shape.c_str(), static_cast<unsigned long long>(count));
    std::printf("\n");
  }

  // In a long row of cases each refusal has to come up.
  bool is_telling() const {
    if (options_.cases < 3000) return true;
    for (const unsigned number : numbers_that_come) {
      if (count_of(number) > 0) continue;
      std::printf("no case was refused by %u\n", number);
      return false;
    }
    return true;
  }

 private:
  // The refusals that the program and the library can give.
  inline static const std::vector<unsigned> numbers_that_come = {1, 2, 4, 5, 6, 8, 9, 10, 11, 12, 13, 14, 15, 16};

  std::uint64_t count_of(unsigned number) const {
    const auto found = tally_.numbers.find(number);
    return found == tally_.numbers.end() ? 0 : found->second;
  }

  bool grid_agrees(const Case &given, const Answer<Records> &expected) {
    const auto by_grid = vertices_by_grid(given);
    if (!by_grid) return true;
    const auto *records = std::get_if<Records>(&expected);
    if (records && records->vertices == *by_grid) {
      ++tally_.grid;
      return true;
    }
    Failure failure(options_, given, expected);
    failure.add("the grid evaluator has other vertices than the reference");
    failure.print();
    return false;
  }

  bool program_agrees(const Case &given, const Answer<Records> &expected) {
    if (!options_.program) return true;
    const ProgramRun run = run_program(*options_.program, given, options_.work);
    const auto why = disagreement(run, given, expected);
    if (!why) {
      ++tally_.program;
      return true;
    }
    Failure failure(options_, given, expected);
    failure.add("program " + *options_.program + ": " + *why + "\n" + spelled(run));
    failure.add_outputs(run);
    failure.print();
    return false;
  }

  bool library_agrees(const Case &given, const Answer<Records> &expected) {
    if (!options_.library) return true;
    return counted(given, expected, disagreement_on_graph(given), tally_.graph_checks) &&
           counted(given, expected, disagreement_on_recipe(given), tally_.recipe_readings) &&
           counted(given, expected, disagreement_on_filter(given, expected), tally_.filters);
  }

  bool counted(const Case &given, const Answer<Records> &expected, const std::optional<std::string> &why, std::uint64_t &count) {
    if (!why) {
      ++count;
      return true;
    }
    Failure failure(options_, given, expected);
    failure.add("library: " + *why);
    failure.print();
    return false;
  }

  Options options_;
  Tally tally_;
};

int compare(const Options &options) {
  std::cout << "cases " << options.start << " to " << options.start + options.cases - 1 << std::endl;
  Comparison comparison(options);
  for (std::uint64_t number = options.start; number < options.start + options.cases; ++number) {
    if (comparison.agrees(make_case(number))) continue;
    std::cout << "again: tests/compare.sh --start " << number << " --cases 1\n";
    comparison.print();
    return 1;
  }
  comparison.print();
  return comparison.is_telling() ? 0 : 1;
}

}  // namespace

int main(int count, char **arguments) {
  try {
    return compare(options_of(count, arguments));
  } catch (const std::exception &error) {
    std::cerr << "compare: " << error.what() << '\n';
    return 2;
  }
}
