/* Writes what GHC's nonmoving collector and its write barrier do as a trace of
   nmgc (docs/GUIDE.md, "Check a barrier by a trace").

   The linker's --wrap puts __wrap_F in place of the runtime's F, which stays
   callable as __real_F. Nothing of GHC's source is here.

   An object of the trace is a constructor with one word that is no pointer, its
   name. */
#include "../common/lines.h"
#include <Rts.h>
#include <stdatomic.h>
#include <stdio.h>
#include <stdlib.h>
#include <string.h>
#include <time.h>

/* What of the runtime has no header outside of it: the epoch of marks, how many
   blocks a segment has, and that its marks stand at byte 18 and its blocks
   behind them, at a multiple of 8 from byte 24 on. */
extern uint8_t nonmovingMarkEpoch;
extern unsigned int nonmovingBlockCountFromSize(uint8_t log_block_size);
#define MARKS 18
#define BLOCKS 24

static int is_planted;          /* the barrier remembers nothing */
static int is_in_command;       /* between an access and its line */
static atomic_long commands_done;
static atomic_int may_wait;     /* the marker, for the program */

static long name_of(StgClosure *p)
{
  for (;;) {
    p = UNTAG_CLOSURE(p);
    const StgInfoTable *info = get_itbl(p);
    switch (info->type) {
    case IND: case IND_STATIC:
      p = ((StgInd *)p)->indirectee;
      continue;
    case CONSTR: case CONSTR_1_0: case CONSTR_0_1: case CONSTR_2_0:
    case CONSTR_1_1: case CONSTR_0_2: case CONSTR_NOCAF:
      if (info->layout.payload.nptrs == 1) {
        long word = (long)p->payload[info->layout.payload.ptrs];
        if (IS_NAME(word)) return word;
      }
    }
    return 0;
  }
}

/* A set of places. */
struct set { void **at; size_t room, count; };

/* Whether it is new. */
static int put(struct set *set, void *p)
{
  if (2 * set->count >= set->room) {
    struct set more = { NULL, 2 * set->room + 1024, 0 };
    more.at = calloc(more.room, sizeof(void *));
    for (size_t i = 0; i < set->room; i++)
      if (set->at[i]) put(&more, set->at[i]);
    free(set->at);
    *set = more;
  }
  size_t i = (size_t)p / 8 * 0x9e3779b97f4a7c15UL % set->room;
  while (set->at[i] && set->at[i] != p) i = (i + 1) % set->room;
  if (set->at[i]) return 0;
  set->at[i] = p;
  set->count++;
  return 1;
}

static int has(const struct set *set, void *p)
{
  if (!set->room) return 0;
  size_t i = (size_t)p / 8 * 0x9e3779b97f4a7c15UL % set->room;
  while (set->at[i] && set->at[i] != p) i = (i + 1) % set->room;
  return set->at[i] != NULL;
}

static void clear(struct set *set)
{
  free(set->at);
  memset(set, 0, sizeof *set);
}

/* Every block with such a mark. */
static void find_marked(struct set *found, uint8_t epoch)
{
  void *state;
  for (char *m = getFirstMBlock(&state); m; m = getNextMBlock(&state, m))
    for (bdescr *bd = FIRST_BDESCR(m); bd <= LAST_BDESCR(m);
         bd += bd->blocks ? bd->blocks : 1) {
      if (!bd->blocks || !(bd->flags & BF_NONMOVING) || bd->flags & BF_LARGE)
        continue;
      uint8_t log_size = bd->nonmoving_segment.log_block_size;
      unsigned int n = nonmovingBlockCountFromSize(log_size);
      uint8_t *marks = (uint8_t *)bd->start + MARKS;
      char *blocks = (char *)bd->start + ((BLOCKS + n + 7) & ~7UL);
      for (unsigned int i = 0; i < n; i++)
        if (marks[i] == epoch) put(found, blocks + ((size_t)i << log_size));
    }
}

/* Every closure of the program's heap that can be reached from here. */
static void find_reached(struct set *found, StgClosure *p)
{
  p = UNTAG_CLOSURE(p);
  if (!put(found, p)) return;
  const StgInfoTable *info = get_itbl(p);
  switch (info->type) {
  case IND: case IND_STATIC:
    find_reached(found, ((StgInd *)p)->indirectee);
    break;
  case CONSTR: case CONSTR_1_0: case CONSTR_0_1: case CONSTR_2_0:
  case CONSTR_1_1: case CONSTR_0_2: case CONSTR_NOCAF:
    for (int i = 0; i < (int)info->layout.payload.ptrs; i++)
      find_reached(found, p->payload[i]);
    break;
  case MUT_VAR_CLEAN: case MUT_VAR_DIRTY:
    find_reached(found, ((StgMutVar *)p)->var);
    break;
  case MUT_ARR_PTRS_CLEAN: case MUT_ARR_PTRS_DIRTY:
    for (StgWord i = 0; i < ((StgMutArrPtrs *)p)->ptrs; i++)
      find_reached(found, ((StgMutArrPtrs *)p)->payload[i]);
  }
}

/* For an object, which is never static. */
static int is_nonmoving(void *p)
{
  return Bdescr((P_)p)->flags & BF_NONMOVING;
}

static StgStablePtr roots;      /* the registers and g */
static int is_asked_for;        /* only cycles that the program asked for */
static int is_asked;
static struct set stale;        /* marks of this epoch before the cycle */
static struct set moving;       /* names that weren't in its heap as it began */

/* Marking. The collector has the snapshot when nonmovingCollect comes back, if
   it began a cycle; nothing of the program has run since. A block that was dead
   in the cycle before and wasn't swept may have the mark of the one before
   that, which is the mark of this one too. */

void __real_nonmovingCollect(StgWeak **weaks, StgTSO **threads);
void __wrap_nonmovingCollect(StgWeak **weaks, StgTSO **threads)
{
  StgWord was = nonmoving_write_barrier_enabled;
  struct set before = { 0 };
  find_marked(&before, 3 - nonmovingMarkEpoch);
  if (!was) atomic_store(&may_wait, is_asked || !is_asked_for);
  __real_nonmovingCollect(weaks, threads);
  if (was || !nonmoving_write_barrier_enabled
      || (is_asked_for && !is_asked)) {
    clear(&before);
    return;
  }
  clear(&stale);
  stale = before;
  clear(&moving);
  struct set reached = { 0 };
  find_reached(&reached, (StgClosure *)deRefStablePtr(roots));
  for (size_t i = 0; i < reached.room; i++)
    if (reached.at[i]) {
      long name = name_of(reached.at[i]);
      if (name && !is_nonmoving(reached.at[i])) put(&moving, (void *)name);
    }
  clear(&reached);
  lines_mark();
  if (is_in_command) lines_give_up("marking began inside a command");
}

/* The marker waits until the program has done some commands more, but not long,
   and not at all while the program waits for it. */
static void wait_for_commands(long most)
{
  static unsigned int seed = 1;
  struct timespec a_while = { 0, 2000 };
  long until = atomic_load(&commands_done) + rand_r(&seed) % most;
  for (int i = 0; i < 500 && atomic_load(&may_wait); i++) {
    if (atomic_load(&commands_done) >= until) return;
    nanosleep(&a_while, NULL);
  }
}

struct MarkQueue_;
void __real_nonmovingMark(struct MarkQueue_ *queue);
void __wrap_nonmovingMark(struct MarkQueue_ *queue)
{
  wait_for_commands(40);
  __real_nonmovingMark(queue);
}

/* Each variable refers to a selector that can't be evaluated, so the marker
   comes here once for each. */
void __real_nonmoving_eval_thunk_selector(void *queue, void *p, void *origin);
void __wrap_nonmoving_eval_thunk_selector(void *queue, void *p, void *origin)
{
  wait_for_commands(8);
  __real_nonmoving_eval_thunk_selector(queue, p, origin);
}

void __real_nonmovingBeginFlush(void *task);
void __wrap_nonmovingBeginFlush(void *task)
{
  atomic_store(&may_wait, 0);
  __real_nonmovingBeginFlush(task);
}

/* What the program can reach, and this cycle doesn't keep: objects of its snapshot
   that it hasn't marked. (It frees those of them that are in segments that were
   full as it began.) */
static long count_lost(const struct set *marked)
{
  long lost = 0;
  struct set reached = { 0 };
  find_reached(&reached, (StgClosure *)deRefStablePtr(roots));
  for (size_t i = 0; i < reached.room; i++) {
    void *p = reached.at[i];
    if (!p || has(marked, p)) continue;
    long name = name_of(p);
    if (name && is_nonmoving(p) && lines_in_snapshot(name)
        && !has(&moving, (void *)name)) lost++;
  }
  clear(&reached);
  return lost;
}

/* Here marking has ended, and the world is stopped. What the cycle keeps is
   what it has marked, and what wasn't in its heap as it began. */
void __real_nonmovingFinishFlush(void *task);
void __wrap_nonmovingFinishFlush(void *task)
{
  if (is_in_command) lines_give_up("marking ended inside a command");
  if (lines_are_marking()) {
    struct set marked = { 0 };
    find_marked(&marked, nonmovingMarkEpoch);
    long *names = calloc(marked.count + moving.count + 1, sizeof(long));
    int count = 0;
    for (size_t i = 0; i < marked.room; i++)
      if (marked.at[i] && !has(&stale, marked.at[i])) {
        long name = name_of(marked.at[i]);
        if (name) names[count++] = name;
      }
    for (size_t i = 0; i < moving.room; i++)
      if (moving.at[i]) names[count++] = (long)moving.at[i];
    long lost = count_lost(&marked);
    if (lost) fprintf(stderr, "%ld objects in use are not marked\n", lost);
    lines_close(names, count);
    free(names);
    clear(&marked);
  }
  __real_nonmovingFinishFlush(task);
}

/* The barrier. */

void __real_updateRemembSetPushClosure_(StgRegTable *reg, StgClosure *p);
void __wrap_updateRemembSetPushClosure_(StgRegTable *reg, StgClosure *p)
{
  long name = name_of(p);
  if (name && is_planted) return;
  if (name && is_in_command) lines_remembered(name);
  __real_updateRemembSetPushClosure_(reg, p);
}

/* What the program calls, always as an unsafe call: no collection comes
   between. */

void nm_start(const char *to, long seed, long planted, long asked_for,
              StgStablePtr program)
{
  is_planted = planted;
  is_asked_for = asked_for;
  roots = program;
  lines_seed(seed);
  lines_start(to);
}

long nm_below(long n) { return lines_below(n); }

/* The next collection is one that the program asked for, or no more. */
void nm_ask(long asked) { is_asked = asked; }

/* The access of a command comes next. */
void nm_begin(void) { is_in_command = 1; }

/* A line of it. */
void nm_line(long command, long a, long b, long c, long d, long e, long count,
             long answer)
{
  const long words[5] = { a, b, c, d, e };
  lines_command(command, words, count, answer);
  atomic_fetch_add(&commands_done, 1);
}

/* All lines of it are written. */
void nm_end(void)
{
  is_in_command = 0;
  lines_settle();
}

/* Keys that are held until a cycle begins, so that no weak pointer dies before
   it. */
static StgStablePtr held[4096];
static int holds;

void nm_hold(StgStablePtr key) { if (holds < 4096) held[holds++] = key; }

void nm_release(void)
{
  while (holds > 0) hs_free_stable_ptr_unsafe(held[--holds]);
}

long nm_is_traced(void) { return lines_are_marking(); }
long nm_marks(void) { return nonmoving_write_barrier_enabled != 0; }
