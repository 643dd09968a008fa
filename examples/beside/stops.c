// Times the stops of a run from outside, by its main thread's calls of pthread_join and pthread_create: a stop lasts from the end
// of a round's threads to the start of the next ones. Writes a line a stop to the file TIMES: microseconds of the main thread.
#define _GNU_SOURCE
#include <dlfcn.h>
#include <pthread.h>
#include <stdio.h>
#include <stdlib.h>
#include <time.h>

static FILE *times;
static struct timespec joined;

__attribute__((constructor)) static void begin(void) {
  const char *to = getenv("TIMES");
  if (to && (times = fopen(to, "w"))) setlinebuf(times);
}

int pthread_create(pthread_t *thread, const pthread_attr_t *with, void *(*body)(void *), void *argument) {
  int (*real)(pthread_t *, const pthread_attr_t *, void *(*)(void *), void *) = dlsym(RTLD_NEXT, "pthread_create");
  if (joined.tv_nsec && times) {
    struct timespec now;
    clock_gettime(CLOCK_THREAD_CPUTIME_ID, &now);
    fprintf(times, "%.1f\n", (now.tv_sec - joined.tv_sec) * 1e6 + (now.tv_nsec - joined.tv_nsec) / 1e3);
    joined.tv_nsec = 0;
  }
  return real(thread, with, body, argument);
}

int pthread_join(pthread_t thread, void **result) {
  int (*real)(pthread_t, void **) = dlsym(RTLD_NEXT, "pthread_join");
  int answer = real(thread, result);
  clock_gettime(CLOCK_THREAD_CPUTIME_ID, &joined);
  return answer;
}
