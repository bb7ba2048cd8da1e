// Lines of a script, as the runners of other stores read them, and the values and replies of these.
#ifndef BENCHMARKS_COMMANDS_H_
#define BENCHMARKS_COMMANDS_H_

#include <algorithm>
#include <cstdint>
#include <iostream>
#include <string>
#include <utility>
#include <vector>

struct Value {
  uint64_t count = 0;
  std::string text;
};

// A value as a reply or a row prints it.
inline std::string Printed(const Value& value) { return std::to_string(value.count) + " " + (value.text.empty() ? "-" : value.text); }

// What stays of a text and the tail behind it: 64 bytes at most.
inline std::string LastOf(const std::string& text) { return text.size() > 64 ? text.substr(text.size() - 64) : text; }

// `key` is the low key of a hold and `text` its high one; `count` is the number of an add, a next or a work, too, and `old` is what a swap asks for.
struct Command {
  std::string line, kind, key, text;
  int caller = 0;
  uint64_t count = 0, old = 0;
  std::string reply;

  Value value() const { return {count, text == "-" ? "" : text}; }

  // Whether it writes only where it finds what it asks for: a new no value, a swap one of its old count.
  bool looks_first() const { return kind == "new" || kind == "swap"; }
  bool is_met(const Value* found) const { return kind == "new" ? found == nullptr : found != nullptr && found->count == old; }
};

// The reply to a new or a swap that finds something else.
inline std::string Kept(const Value* found) { return "kept " + (found == nullptr ? std::string("none") : Printed(*found)); }

// The word of a line that begins there; goes on behind the space after it.
inline std::string NextWord(const std::string& line, size_t* at) {
  const size_t end = std::min(line.find(' ', *at), line.size());
  const std::string word = line.substr(*at, end - *at);
  *at = std::min(end + 1, line.size());
  return word;
}

inline Command Parse(std::string line) {
  Command command;
  size_t at = 0;
  command.caller = std::stoi(NextWord(line, &at));
  command.kind = NextWord(line, &at);
  const bool of_rows = command.kind == "next" || command.kind == "work";
  if (!of_rows) command.key = NextWord(line, &at);
  if (command.kind == "swap") command.old = std::stoull(NextWord(line, &at));
  const bool has_count = of_rows || command.looks_first() || command.kind == "put" || command.kind == "add";
  if (has_count) command.count = std::stoull(NextWord(line, &at));
  command.text = NextWord(line, &at);
  command.line = std::move(line);
  return command;
}

// All lines of the standard input.
inline std::vector<Command> ReadCommands() {
  std::ios::sync_with_stdio(false);
  std::vector<Command> commands;
  for (std::string line; std::getline(std::cin, line);) commands.push_back(Parse(std::move(line)));
  return commands;
}

// An entry of a history, which ends in the bytes that a store merged before it.
inline void PrintEntry(uint64_t number, const Command& command, uint64_t merged) {
  std::cout << number << " " << command.line << " => " << command.reply << " m" << merged << "\n";
}

#endif  // BENCHMARKS_COMMANDS_H_
