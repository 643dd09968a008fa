/* Two threads store into a small heap, and their barrier is checked as they go:
   ./test PROGRAM. Once the barrier is right, and once the second thread's forgets
   some stores: then the first of these that made something due is to be told,
   at that store.

   There is no collector here: a cycle is a stretch of time, and nothing is
   freed. So it is the barrier alone that is tried. */
#include "nmgc_check.h"
#include <pthread.h>
#include <stdlib.h>

enum { THREADS = 2, OBJECTS = 40, STORES = 300, CYCLES = 3 };

/* Registers of each thread: an array of all its objects, two of them, and nil. */
enum { TABLE, LEFT, RIGHT, NIL };

/* An object: its name, and what its one field refers to. */
typedef struct object {
  nmgc_name name;
  struct object *field;
} object;

static object heap[THREADS][OBJECTS];
static nmgc_log logs[THREADS];
static nmgc_judge judge;
static pthread_mutex_t lock = PTHREAD_MUTEX_INITIALIZER;
static int is_marking, forgets;
static long found; /* stores at which something was refused */

static void fail(const char *what)
{
  fprintf(stderr, "test.c: %s: %s\n", what, judge.told);
  exit(1);
}

/* A thread makes its objects, whose fields are nil, and the array of them. */
static void make(unsigned thread)
{
  unsigned i;
  nmgc_command(&judge, "%u nil r%u = ok", thread, NIL);
  nmgc_command(&judge, "%u arr r%u %u r%u = %u.0", thread, TABLE, OBJECTS, NIL, thread);
  for (i = 0; i < OBJECTS; i++) {
    heap[thread][i].name = NMGC_NAME(thread, i + 1);
    heap[thread][i].field = NULL;
    nmgc_command(&judge, "%u var r%u r%u = %u.%u", thread, LEFT, NIL, thread, i + 1);
    nmgc_command(&judge, "%u set r%u %u r%u = ok", thread, TABLE, i, LEFT);
  }
}

/* A thread loads one of its objects into a register. */
static object *load(unsigned thread, unsigned to, unsigned i)
{
  nmgc_command(&judge, "%u get r%u r%u %u = %u.%u", thread, to, TABLE, i, thread, i + 1);
  return &heap[thread][i];
}

/* The store with its barrier: what stands there is remembered before it goes. */
static void store(unsigned thread, object *into, object *value, int is_forgotten)
{
  if (is_marking && into->field && !is_forgotten) nmgc_remembered(&logs[thread], into->field->name);
  into->field = value;
}

/* One step of a thread, and whether all that it made due was remembered. */
static void step(unsigned thread, unsigned left, unsigned right, int is_forgotten)
{
  object *into = load(thread, LEFT, left), *value = load(thread, RIGHT, right);
  char since[64];
  store(thread, into, value, is_forgotten);
  nmgc_command(&judge, "%u set r%u 0 r%u = ok", thread, LEFT, RIGHT);
  snprintf(since, sizeof since, "is due since line %lu (", judge.line);
  if (!is_marking) return;
  nmgc_flush(&judge, &logs[thread]);
  if (nmgc_settle(&judge, thread) == 0) return;
  found++;
  if (!is_forgotten) fail("refused at a store that remembered what it had to");
  if (!strstr(judge.told, since)) fail("told of another store");
}

static void *mutate(void *given)
{
  unsigned thread = (unsigned)(uintptr_t)given, seed = thread + 1, n;
  for (n = 0; n < STORES; n++) {
    unsigned left = (unsigned)rand_r(&seed) % OBJECTS, right = (unsigned)rand_r(&seed) % OBJECTS;
    pthread_mutex_lock(&lock);
    if (!judge.is_refused) step(thread, left, right, forgets && thread == 1 && n % 2 == 1);
    pthread_mutex_unlock(&lock);
  }
  return NULL;
}

/* Both threads at once. */
static void run(void)
{
  pthread_t threads[THREADS];
  unsigned i;
  for (i = 0; i < THREADS; i++)
    if (pthread_create(&threads[i], NULL, mutate, (void *)(uintptr_t)i) != 0) fail("no thread");
  for (i = 0; i < THREADS; i++) pthread_join(threads[i], NULL);
}

/* A heap is made and written, and then a few cycles go by. */
static int cycles(const char *program)
{
  unsigned i, cycle;
  if (nmgc_begin(&judge, program, THREADS) != 0) fail("no judge");
  for (i = 0; i < THREADS; i++) make(i);
  for (cycle = 0; cycle < CYCLES && !judge.is_refused; cycle++) {
    is_marking = 0;
    run();
    nmgc_mark(&judge);
    is_marking = 1;
    run();
    nmgc_close(&judge);
  }
  return nmgc_end(&judge);
}

int main(int argc, char **argv)
{
  if (argc != 2) {
    fputs("usage: test PROGRAM\n", stderr);
    return 2;
  }
  if (cycles(argv[1]) != 0 || found != 0) fail("a right barrier is refused");
  printf("right: %s\n", judge.told);
  forgets = 1;
  if (cycles(argv[1]) != 1 || found != 1) fail("a wrong barrier is accepted");
  printf("wrong, and told at the store: %s\n", judge.told);
  return 0;
}
