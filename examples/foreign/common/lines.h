/* Writes a trace of nmgc (docs/GUIDE.md, "The form of a trace") for a runtime
   with one mutator: one file, with as many cycles as it comes to.

   A value is a long: NIL, a number, or a name made by NAME. */
#ifndef LINES_H
#define LINES_H

#define NIL (-1L)
#define MAGIC 0x5eedL
#define NAME(serial, kind) (MAGIC << 44 | (long)(serial) << 3 | (kind))
#define IS_NAME(v) ((v) >> 44 == MAGIC)
#define SERIAL(v) ((v) >> 3 & 0xffffffffL)
#define KIND(v) ((v) & 7)

/* Kinds. g is the one of kind SHARED. */
enum { SHARED, CON, VAR, ARR, WEAK };

/* Commands, in the order of the table in lines.c. */
enum { NUM, NIL_, MOV, CON_, VAR_, ARR_, WEAK_, GET, SET, CAS, DEREF,
  FINALISE };

/* Answers that are no values. */
enum { OK = -2, YES = -3, NO = -4, NOPOINTER = -5, NOFIELD = -6,
  WRONGKIND = -7, FIXED = -8, DEAD = -9 };

/* The operand that is g; the others are registers. */
#define G 16

/* The trace is FOLDER/trace. It ends with its stop where the process ends by
   itself; of a cycle that goes on then only the commands are written. */
void lines_start(const char *folder);
int lines_are_marking(void);
long lines_cycles(void);   /* that have ended, or were given up */

/* A command, its words as numbers, and its answer. */
void lines_command(int command, const long *words, int count, long answer);

/* The barrier remembered an object, in the course of a command. May be called
   within the barrier: it only appends. */
void lines_remembered(long name);

/* What the barrier has remembered is written as pushes. Comes after the lines of
   a command that may have called the barrier. */
void lines_settle(void);

void lines_mark(void);

/* Marking ends. `marked` has the names that the runtime has marked; those
   that the snapshot doesn't have are left out. */
void lines_close(const long *marked, int count);

/* Is this object in the snapshot of the cycle that marks? */
int lines_in_snapshot(long name);

/* Nothing is written of this cycle any more but its commands, for a reason. */
void lines_give_up(const char *why);

/* Random numbers: at least 0, below n. */
void lines_seed(unsigned long seed);
long lines_below(long n);

#endif
