// Runs a script of puts, adds, tails, dels, news, swaps, gets and works over a sorted map of the standard library, in memory, and prints the history.
//
//     map_run [TOLD] < script.txt
//
// The lines are done in their order, whoever the caller is; a work does nothing. Into a file TOLD goes the processor time in seconds that the
// commands alone took: all lines are read before, and printed after.
#include <cstdint>
#include <cstdio>
#include <cstdlib>
#include <ctime>
#include <map>
#include <string>
#include <vector>

#include "commands.h"

namespace {

class Store {
 public:
  std::string Answer(const Command& command) {
    if (command.kind == "get") return Get(command.key);
    if (command.kind == "work") return "did 0";
    if (command.looks_first()) return Write(command);
    if (command.kind == "put") {
      rows_[command.key] = command.value();
    } else if (command.kind == "add") {
      rows_[command.key].count += command.count;
    } else if (command.kind == "tail") {
      std::string& text = rows_[command.key].text;
      text = LastOf(text + command.text);
    } else if (command.kind == "del") {
      rows_.erase(command.key);
    } else {
      std::exit(2);
    }
    return "ok";
  }

 private:
  std::string Get(const std::string& key) const {
    const auto found = rows_.find(key);
    return found == rows_.end() ? "none" : "is " + Printed(found->second);
  }

  // A put where the key has what the command asks for.
  std::string Write(const Command& command) {
    const auto found = rows_.find(command.key);
    const Value* value = found == rows_.end() ? nullptr : &found->second;
    if (!command.is_met(value)) return Kept(value);
    rows_[command.key] = command.value();
    return "ok";
  }

  std::map<std::string, Value> rows_;
};

double ProcessorTime() {
  timespec now;
  clock_gettime(CLOCK_PROCESS_CPUTIME_ID, &now);
  return now.tv_sec + now.tv_nsec / 1e9;
}

bool Tell(const char* path, double seconds) {
  FILE* told = fopen(path, "w");
  if (told == nullptr) return false;
  fprintf(told, "%.6f\n", seconds);
  return fclose(told) == 0;
}

}  // namespace

int main(int argc, char** argv) {
  if (argc > 2) return 1;
  std::vector<Command> commands = ReadCommands();
  Store store;
  const double began = ProcessorTime();
  for (Command& command : commands) command.reply = store.Answer(command);
  const double took = ProcessorTime() - began;
  uint64_t number = 0;
  for (const Command& command : commands) PrintEntry(++number, command, 0);
  return argc < 2 || Tell(argv[1], took) ? 0 : 7;
}
