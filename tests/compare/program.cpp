#include "program.hpp"

#include <fcntl.h>
#include <signal.h>
#include <spawn.h>
#include <sys/wait.h>
#include <unistd.h>

#include <algorithm>
#include <filesystem>
#include <stdexcept>

#include "../reference/files.hpp"

extern char **environ;

namespace {

using reference::Bytes;

constexpr unsigned longest_seconds = 120;

volatile pid_t running = 0;

void end_running(int) {
  if (running > 0) kill(running, SIGKILL);
}

template <class Buffer>
void put_file(const std::string &path, const Buffer &bytes) {
  if (!files::write(path, bytes)) throw std::runtime_error("cannot write " + path);
}

void put_old_outputs(const Case &given, const std::string &folder) {
  for (const char *name : {"/vertices_out", "/edges_out"}) std::filesystem::remove(folder + name);
  if (!given.old_outputs) return;
  put_file(folder + "/vertices_out", given.old_outputs->vertices);
  put_file(folder + "/edges_out", given.old_outputs->edges);
}

pid_t spawn(const std::string &program, const std::vector<std::string> &arguments, const std::string &folder) {
  std::vector<char *> pointers = {const_cast<char *>(program.c_str())};
  for (const std::string &argument : arguments) pointers.push_back(const_cast<char *>(argument.c_str()));
  pointers.push_back(nullptr);

  const std::string out = folder + "/stdout";
  const std::string err = folder + "/stderr";
  posix_spawn_file_actions_t actions;
  posix_spawn_file_actions_init(&actions);
  posix_spawn_file_actions_addopen(&actions, STDIN_FILENO, "/dev/null", O_RDONLY, 0);
  posix_spawn_file_actions_addopen(&actions, STDOUT_FILENO, out.c_str(), O_WRONLY | O_CREAT | O_TRUNC, 0600);
  posix_spawn_file_actions_addopen(&actions, STDERR_FILENO, err.c_str(), O_WRONLY | O_CREAT | O_TRUNC, 0600);
  pid_t child = 0;
  const int error = posix_spawn(&child, program.c_str(), &actions, nullptr, pointers.data(), environ);
  posix_spawn_file_actions_destroy(&actions);
  if (error != 0) throw std::runtime_error("cannot start " + program);
  return child;
}

// The status of the child when it has ended, which is made to happen after some time.
int wait_for(pid_t child) {
  running = child;
  signal(SIGALRM, end_running);
  alarm(longest_seconds);
  int status = 0;
  while (waitpid(child, &status, 0) < 0) {
  }
  alarm(0);
  running = 0;
  return status;
}

bool is_one_line(const std::string &text) {
  return text.size() > 1 && text.back() == '\n' && std::count(text.begin(), text.end(), '\n') == 1;
}

std::optional<std::string> disagreement(const ProgramRun &run, const Case &given, const reference::Refusal &refusal) {
  const std::string line = "refused " + std::to_string(refusal.number) + ' ' + std::to_string(refusal.place) + '\n';
  if (run.exit_status != 1) return "status 1 is expected";
  if (run.out != line) return "on stdout is expected: " + line;
  if (!is_one_line(run.err)) return "one line on stderr is expected";
  if (run.err.find(name_of(refusal.part)) == std::string::npos) {
    return std::string("the part on stderr is expected: ") + name_of(refusal.part);
  }
  const std::optional<Bytes> old_vertices = given.old_outputs ? std::optional(given.old_outputs->vertices) : std::nullopt;
  const std::optional<Bytes> old_edges = given.old_outputs ? std::optional(given.old_outputs->edges) : std::nullopt;
  if (run.vertices != old_vertices || run.edges != old_edges) return "a refusal has made or changed an output file";
  return std::nullopt;
}

std::optional<std::string> disagreement(const ProgramRun &run, const reference::Records &records) {
  if (run.exit_status != 0) return "status 0 is expected";
  if (!is_one_line(run.out) || run.out.rfind("refused", 0) == 0) return "one line on stdout is expected";
  if (run.vertices != records.vertices) return "the vertex records differ";
  if (run.edges != records.edges) return "the edge records differ";
  return std::nullopt;
}

}  // namespace

std::vector<std::string> write_inputs(const Case &given, const std::string &folder) {
  put_file(folder + "/graph", given.graph);
  put_file(folder + "/vertices", given.vertices);
  if (given.edges) put_file(folder + "/edges", *given.edges);
  // Of a recipe file the program drops one final newline, which editors write: so the text is followed by one.
  put_file(folder + "/recipe", given.recipe_in_file ? given.recipe + "\n" : given.recipe);
  return {given.kind,
          std::to_string(given.order),
          folder + "/graph",
          folder + "/vertices",
          given.edges ? folder + "/edges" : "-",
          given.recipe_in_file ? "@" + folder + "/recipe" : given.recipe,
          folder + "/vertices_out",
          folder + "/edges_out"};
}

ProgramRun run_program(const std::string &program, const Case &given, const std::string &folder) {
  const auto arguments = write_inputs(given, folder);
  put_old_outputs(given, folder);
  const int status = wait_for(spawn(program, arguments, folder));
  ProgramRun run;
  if (WIFEXITED(status)) run.exit_status = WEXITSTATUS(status);
  if (WIFSIGNALED(status)) run.signal = WTERMSIG(status);
  run.out = files::read<std::string>(folder + "/stdout").value_or("");
  run.err = files::read<std::string>(folder + "/stderr").value_or("");
  run.vertices = files::read<Bytes>(folder + "/vertices_out");
  run.edges = files::read<Bytes>(folder + "/edges_out");
  return run;
}

std::optional<std::string> disagreement(const ProgramRun &run, const Case &given,
                                        const reference::Answer<reference::Records> &expected) {
  if (run.signal != 0) return "it was ended by signal " + std::to_string(run.signal);
  if (const auto *refusal = std::get_if<reference::Refusal>(&expected)) return disagreement(run, given, *refusal);
  return disagreement(run, std::get<reference::Records>(expected));
}
