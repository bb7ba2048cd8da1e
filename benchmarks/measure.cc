// Runs a program and writes what the system counted of it, with its threads, as one line: wall, user and system time in seconds, peak memory in kilobytes.
//
//     measure TOLD PROGRAM WORD...        (the line goes to the file TOLD; streams and status are the program's)
//
// A process has in its peak what its parent held when it was made, so a program is measured from a small parent: a shell or an interpreter would be in it.
#include <sys/resource.h>
#include <sys/time.h>
#include <sys/wait.h>
#include <time.h>
#include <unistd.h>

#include <cstdio>

namespace {

double Now() {
  timespec now;
  clock_gettime(CLOCK_MONOTONIC, &now);
  return now.tv_sec + now.tv_nsec / 1e9;
}

double Seconds(const timeval& time) { return time.tv_sec + time.tv_usec / 1e6; }

}  // namespace

int main(int argc, char** argv) {
  if (argc < 3) return 125;
  const double began = Now();
  const pid_t child = fork();
  if (child == 0) {
    execv(argv[2], argv + 2);
    _exit(127);
  }
  int status = 0;
  rusage used;
  if (child < 0 || wait4(child, &status, 0, &used) != child) return 126;
  const double wall = Now() - began;
  FILE* told = fopen(argv[1], "w");
  if (told == nullptr) return 124;
  fprintf(told, "%.6f %.6f %.6f %ld\n", wall, Seconds(used.ru_utime), Seconds(used.ru_stime), used.ru_maxrss);
  if (fclose(told) != 0) return 124;
  return WIFEXITED(status) ? WEXITSTATUS(status) : 128 + WTERMSIG(status);
}
