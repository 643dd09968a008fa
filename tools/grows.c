// Counts the instructions of a session under callgrind, from the line "#count" on: a dump "round" behind each thread of a
// round, and a dump "stop" before each read.
#define _GNU_SOURCE
#include <dlfcn.h>
#include <pthread.h>
#include <string.h>
#include <unistd.h>
#include <valgrind/callgrind.h>

static int counts;

ssize_t read(int from, void *into, size_t most) {
  ssize_t (*real)(int, void *, size_t) = dlsym(RTLD_NEXT, "read");
  if (counts) CALLGRIND_DUMP_STATS_AT("stop");
  ssize_t got = real(from, into, most);
  if (!counts && got > 0 && memmem(into, got, "#count", 6)) {
    counts = 1;
    CALLGRIND_START_INSTRUMENTATION;
  }
  if (counts) CALLGRIND_ZERO_STATS;
  return got;
}

int pthread_join(pthread_t thread, void **result) {
  int (*real)(pthread_t, void **) = dlsym(RTLD_NEXT, "pthread_join");
  int answer = real(thread, result);
  if (counts) CALLGRIND_DUMP_STATS_AT("round");
  return answer;
}
