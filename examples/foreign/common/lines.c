#include "lines.h"
#include <stdio.h>
#include <stdlib.h>
#include <string.h>

/* How a command is spelled: D and V are a register and an operand, N a number,
   * any number of operands more. */
static const struct { const char *word, *form; } spelled[] = {
  { "num", "DN" }, { "nil", "D" }, { "mov", "DV" }, { "con", "DN*" },
  { "var", "DV" }, { "arr", "DNV" }, { "weak", "DVVV" }, { "get", "DVN" },
  { "set", "VNV" }, { "cas", "VNVV" }, { "deref", "DV" }, { "finalise", "DV" },
};

static const char *const answers[] = { "ok", "yes", "no", "nopointer",
  "nofield", "wrongkind", "fixed", "dead" };

static FILE *trace;
/* The lines of the cycle that marks, each with a byte in front that tells a
   command from an event: if the cycle is given up, its commands stay. */
static FILE *cycle;
static long cycles, closed, made, made_before_mark;

#define MOST 4096
static long remembered[MOST];   /* by the barrier, since the last lines_settle */
static int remembers;

static void write_value(FILE *f, long v)
{
  if (v == NIL) fputs("nil", f);
  else if (v < NIL) fputs(answers[OK - v], f);
  else if (!IS_NAME(v)) fprintf(f, "%ld", v);
  else if (KIND(v) == SHARED) fputs("g", f);
  else fprintf(f, "0.%ld", SERIAL(v));
}

/* Where the next line goes, which is a command or an event. */
static FILE *line(char sort)
{
  if (cycle) fputc(sort, cycle);
  return cycle ? cycle : trace;
}

/* The lines of the cycle go into the trace, or only those of its commands. */
static void end_cycle(int is_whole)
{
  char *text = NULL;
  size_t room = 0;
  rewind(cycle);
  while (getline(&text, &room, cycle) > 0)
    if (is_whole || *text == 'c') fputs(text + 1, trace);
  free(text);
  fclose(cycle);
  cycle = NULL;
  cycles++;
}

static void stop(void)
{
  if (cycle) end_cycle(0);
  if (closed) fputs("stop\n", trace);
  fclose(trace);
}

void lines_start(const char *folder)
{
  char name[4096];
  snprintf(name, sizeof name, "%s/trace", folder);
  trace = fopen(name, "w");
  if (trace == NULL) { perror(name); exit(1); }
  fputs("trace 2\nmutators 1\n", trace);
  atexit(stop);
}

int lines_are_marking(void) { return cycle != NULL; }
long lines_cycles(void) { return cycles; }

void lines_command(int command, const long *words, int count, long answer)
{
  const char *form = spelled[command].form;
  FILE *f = line('c');
  if (command >= CON_ && command <= WEAK_) made++;
  fprintf(f, "0 %s", spelled[command].word);
  for (int i = 0; i < count; i++) {
    if (*form == 'N') fprintf(f, " %ld", words[i]);
    else if (words[i] == G) fputs(" g", f);
    else fprintf(f, " r%ld", words[i]);
    if (*form != '*') form++;
  }
  fputs(" = ", f);
  write_value(f, answer);
  fputc('\n', f);
}

int lines_in_snapshot(long name)
{
  return KIND(name) != SHARED && SERIAL(name) < made_before_mark;
}

void lines_remembered(long name)
{
  if (remembers == MOST) { fputs("too many pushes in a command\n", stderr); abort(); }
  remembered[remembers++] = name;
}

void lines_settle(void)
{
  for (int i = 0; cycle && i < remembers; i++)
    if (lines_in_snapshot(remembered[i])) {
      FILE *f = line('e');
      fputs("push 0 ", f);
      write_value(f, remembered[i]);
      fputc('\n', f);
    }
  remembers = 0;
}

void lines_mark(void)
{
  if (cycle) lines_give_up("marking began twice");
  cycle = tmpfile();
  if (cycle == NULL) { perror("tmpfile"); exit(1); }
  fputs("mark\n", line('e'));
  made_before_mark = made;
}

static int by_number(const void *a, const void *b)
{
  long x = *(const long *)a, y = *(const long *)b;
  return (x > y) - (x < y);
}

void lines_close(const long *marked, int count)
{
  long *serials, n = 0;
  FILE *f;
  if (cycle == NULL) return;
  fputs("close\n", line('e'));
  serials = malloc((count + 1) * sizeof(long));
  for (int i = 0; i < count; i++)
    if (lines_in_snapshot(marked[i])) serials[n++] = SERIAL(marked[i]);
  qsort(serials, n, sizeof(long), by_number);
  f = line('e');
  fputs("marked", f);
  for (long i = 0; i < n; i++)
    if (i == 0 || serials[i] != serials[i - 1])
      fprintf(f, " 0.%ld", serials[i]);
  fputs(" g\n", f);
  free(serials);
  end_cycle(1);
  closed++;
}

void lines_give_up(const char *why)
{
  if (cycle == NULL) return;
  fprintf(stderr, "cycle %ld is given up: %s\n", cycles, why);
  end_cycle(0);
}

static unsigned long state = 1;
void lines_seed(unsigned long seed) { state = seed * 2 + 1; }
long lines_below(long n)
{
  state = state * 6364136223846793005UL + 1442695040888963407UL;
  return (long)((state >> 33) % (unsigned long)n);
}
