// Runs a script over LevelDB, each write synced before its caller's next command, and prints the history.
//
//     leveldb_run [--buffer BYTES] [--count] FOLDER < script.txt        (or --version)
//
// Each caller of the script does its lines in order, on a thread of its own where there are several. LevelDB has no blind add, so an add or a tail
// reads the value first, as a new and a swap do; so that no other write of the key comes between, a caller has the key's lock (one of many, by its
// hash) while it does a command. Writes of other keys still meet in LevelDB, which syncs them together. The history's order is that in which the
// locks were had: commands of one key took effect in it, and those of two keys are nothing to one another. A hold is a snapshot with an iterator on
// it, which the caller's nexts move on; it is of all keys, so the caller has all locks while it is made. A work does nothing, since LevelDB merges by
// itself.
//
// A value is stored as its count and its text, without compression: a text of one letter would be next to nothing. --buffer is the size of the write buffer,
// 65,536 bytes at least (else LevelDB's own, 4 MB). With --count tables are read by calls, which a tracer sees, and not by a map of memory; and each entry
// ends in the bytes that were put into tables since the entry before.
#include <fcntl.h>
#include <unistd.h>

#include <array>
#include <atomic>
#include <cstdint>
#include <cstdlib>
#include <functional>
#include <iostream>
#include <map>
#include <memory>
#include <mutex>
#include <string>
#include <thread>
#include <vector>

#include "commands.h"
#include "leveldb/db.h"
#include "leveldb/env.h"

namespace {

using leveldb::Slice;
using leveldb::Status;

// ---- what is counted

std::atomic<uint64_t> bytes_of_tables{0};

bool IsTable(const std::string& name) { return name.size() > 4 && name.compare(name.size() - 4, 4, ".ldb") == 0; }

class CountedFile : public leveldb::WritableFile {
 public:
  explicit CountedFile(leveldb::WritableFile* file) : file_(file) {}
  Status Append(const Slice& data) override {
    bytes_of_tables += data.size();
    return file_->Append(data);
  }
  Status Close() override { return file_->Close(); }
  Status Flush() override { return file_->Flush(); }
  Status Sync() override { return file_->Sync(); }

 private:
  std::unique_ptr<leveldb::WritableFile> file_;
};

class CalledFile : public leveldb::RandomAccessFile {
 public:
  explicit CalledFile(int file) : file_(file) {}
  ~CalledFile() override { close(file_); }
  Status Read(uint64_t offset, size_t length, Slice* result, char* scratch) const override {
    const ssize_t size = pread(file_, scratch, length, static_cast<off_t>(offset));
    *result = Slice(scratch, size < 0 ? 0 : size);
    return size < 0 ? Status::IOError("pread") : Status::OK();
  }

 private:
  const int file_;
};

class CountingEnv : public leveldb::EnvWrapper {
 public:
  CountingEnv() : EnvWrapper(leveldb::Env::Default()) {}
  Status NewWritableFile(const std::string& name, leveldb::WritableFile** file) override {
    Status done = target()->NewWritableFile(name, file);
    if (done.ok() && IsTable(name)) *file = new CountedFile(*file);
    return done;
  }
  Status NewRandomAccessFile(const std::string& name, leveldb::RandomAccessFile** file) override {
    const int opened = open(name.c_str(), O_RDONLY | O_CLOEXEC);
    if (opened < 0) return Status::IOError(name);
    *file = new CalledFile(opened);
    return Status::OK();
  }
};

// ---- values

std::string Encode(const Value& value) { return std::to_string(value.count) + " " + value.text; }

Value Decode(const std::string& bytes) {
  Value value;
  const size_t space = bytes.find(' ');
  value.count = std::stoull(bytes.substr(0, space));
  value.text = bytes.substr(space + 1);
  return value;
}

bool Find(leveldb::DB* db, const std::string& key, Value* value) {
  std::string bytes;
  const Status done = db->Get(leveldb::ReadOptions(), key, &bytes);
  if (!done.ok() && !done.IsNotFound()) std::exit(7);
  if (done.ok()) *value = Decode(bytes);
  return done.ok();
}

// ---- held ranges

// The rows of a moment from a key on, without the high one, as far as they weren't given yet.
class Held {
 public:
  Held(leveldb::DB* db, const std::string& low, const std::string& high) : db_(db), snapshot_(db->GetSnapshot()), high_(high) {
    leveldb::ReadOptions of_moment;
    of_moment.snapshot = snapshot_;
    rows_.reset(db->NewIterator(of_moment));
    rows_->Seek(low);
  }
  ~Held() {
    rows_.reset();
    db_->ReleaseSnapshot(snapshot_);
  }

  std::string Next(uint64_t most) {
    std::string rows;
    uint64_t count = 0;
    for (; count < most && rows_->Valid() && rows_->key().compare(high_) < 0; rows_->Next(), ++count) {
      rows += " " + rows_->key().ToString() + " " + Printed(Decode(rows_->value().ToString()));
    }
    if (!rows_->status().ok()) std::exit(7);
    return "rows " + std::to_string(count) + rows;
  }

 private:
  leveldb::DB* const db_;
  const leveldb::Snapshot* const snapshot_;
  const std::string high_;
  std::unique_ptr<leveldb::Iterator> rows_;
};

// ---- commands

class Store {
 public:
  Store(leveldb::DB* db, size_t commands) : db_(db), order_(commands) {}

  void Do(Command* command) {
    const auto locks = LocksOf(*command);
    command->reply = Answer(*command);
    const uint64_t place = next_++;
    order_[place] = {command, bytes_of_tables.load()};
  }

  void Print() const {
    uint64_t place = 0, before = 0;
    for (const auto& [command, bytes] : order_) {
      PrintEntry(++place, *command, bytes > before ? bytes - before : 0);
      before = std::max(before, bytes);
    }
  }

 private:
  std::vector<std::unique_lock<std::mutex>> LocksOf(const Command& command) {
    std::vector<std::unique_lock<std::mutex>> locks;
    if (command.kind == "hold") {
      for (std::mutex& lock : locks_) locks.emplace_back(lock);
    } else if (!command.key.empty()) {
      locks.emplace_back(locks_[std::hash<std::string>()(command.key) % locks_.size()]);
    }
    return locks;
  }

  std::string Answer(const Command& command) {
    Value value;
    if (command.kind == "put") return Put(command.key, command.value());
    if (command.kind == "del") return Done(db_->Delete(durable(), command.key));
    if (command.kind == "work") return "did 0";
    if (command.kind == "hold" || command.kind == "next" || command.kind == "drop") return OfHold(command, &held_[command.caller]);
    const bool found = Find(db_.get(), command.key, &value);
    if (command.kind == "add") return Put(command.key, {value.count + command.count, value.text});
    if (command.kind == "tail") return Put(command.key, {value.count, LastOf(value.text + command.text)});
    if (command.looks_first()) {
      const Value* there = found ? &value : nullptr;
      return command.is_met(there) ? Put(command.key, command.value()) : Kept(there);
    }
    if (command.kind != "get") std::exit(2);
    return found ? "is " + Printed(value) : "none";
  }

  std::string OfHold(const Command& command, std::unique_ptr<Held>* held) {
    if (command.kind == "hold") {
      held->reset(new Held(db_.get(), command.key, command.text));
      return "held";
    }
    if (*held == nullptr) return "nohold";
    if (command.kind == "next") return (*held)->Next(command.count);
    held->reset();
    return "ok";
  }

  std::string Put(const std::string& key, const Value& value) { return Done(db_->Put(durable(), key, Encode(value))); }

  static std::string Done(const Status& status) {
    if (!status.ok()) std::exit(7);
    return "ok";
  }

  static leveldb::WriteOptions durable() {
    leveldb::WriteOptions options;
    options.sync = true;
    return options;
  }

  std::unique_ptr<leveldb::DB> db_;
  std::array<std::unique_ptr<Held>, 17> held_;  // of each caller, 1 to 16
  std::array<std::mutex, 1024> locks_;
  std::atomic<uint64_t> next_{0};
  std::vector<std::pair<const Command*, uint64_t>> order_;
};

void Run(std::vector<Command>* commands, Store* store) {
  std::map<int, std::vector<Command*>> callers;
  for (Command& command : *commands) callers[command.caller].push_back(&command);
  const auto serve = [store](const std::vector<Command*>& lines) {
    for (Command* command : lines) store->Do(command);
  };
  if (callers.size() == 1) return serve(callers.begin()->second);
  std::vector<std::thread> threads;
  for (const auto& caller : callers) threads.emplace_back(serve, std::cref(caller.second));
  for (std::thread& thread : threads) thread.join();
}

}  // namespace

int main(int argc, char** argv) {
  leveldb::Options options;
  options.create_if_missing = true;
  options.compression = leveldb::kNoCompression;
  static CountingEnv counting;
  int word = 1;
  for (; word < argc && std::string(argv[word]).compare(0, 2, "--") == 0; ++word) {
    const std::string option = argv[word];
    if (option == "--version") {
      std::cout << leveldb::kMajorVersion << "." << leveldb::kMinorVersion << "\n";
      return 0;
    }
    if (option == "--count") options.env = &counting;
    if (option == "--buffer" && word + 1 < argc) options.write_buffer_size = std::stoull(argv[++word]);
  }
  if (word + 1 != argc) return 1;
  std::vector<Command> commands = ReadCommands();
  leveldb::DB* db = nullptr;
  if (!leveldb::DB::Open(options, argv[word], &db).ok()) return 7;
  Store store(db, commands.size());
  Run(&commands, &store);
  store.Print();
  return 0;
}
