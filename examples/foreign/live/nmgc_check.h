/* Has a runtime's barrier checked while the runtime runs, by nmgc_trace --live.

   A judge is a process of its own, at the other end of a socket. It is told a
   trace of format 2 (docs/GUIDE.md, "The form of a trace") line by line, and
   answers at each nmgc_ask: whether all that it was told can happen. So a store
   whose barrier forgot something is found at the nmgc_settle after that store,
   with the store's own stack for a debugger to show.

   Nothing here allocates, locks or keeps a global. A judge is a variable of
   yours. Within a barrier call nmgc_remembered alone, which appends to a log of
   its thread and does nothing else; all other calls are for one thread at a
   time, so call them under the lock that orders your loads and stores.

   Calls answer 0 where all that was told so far can happen, as far as it was
   asked; 1 where something can't, and then `told` has the checker's sentence and
   every later call answers 1; and -1 where the judge can't be reached, with the
   reason in errno. */
#ifndef NMGC_CHECK_H
#define NMGC_CHECK_H

#include <errno.h>
#include <stdarg.h>
#include <stdint.h>
#include <stdio.h>
#include <string.h>
#include <sys/socket.h>
#include <sys/types.h>
#include <sys/wait.h>
#include <unistd.h>

/* For another language define it as nothing, in one file of C: then the calls
   are plain functions that a linker finds. */
#ifndef NMGC_API
#define NMGC_API static inline
#endif

/* An object: the mutator that made it, and its number among that mutator's. */
typedef uint64_t nmgc_name;
#define NMGC_NAME(maker, serial) ((nmgc_name)(maker) << 32 | (nmgc_name)(serial))
#define NMGC_SHARED UINT64_MAX /* g */

/* What a thread's barrier has remembered since its last nmgc_flush. */
#define NMGC_LOG 62
typedef struct {
  uint32_t count, lost;
  nmgc_name names[NMGC_LOG];
} nmgc_log;

typedef struct {
  int socket;
  pid_t process;
  int is_refused;
  unsigned long line; /* the number of the last line that was told */
  size_t used;
  char text[32768];   /* lines that weren't sent yet */
  char told[512];     /* the last answer */
} nmgc_judge;

/* Within a barrier: the object is remembered. No lock, no allocation, no call. */
static inline void nmgc_remembered(nmgc_log *log, nmgc_name name)
{
  if (log->count < NMGC_LOG) log->names[log->count++] = name;
  else log->lost++;
}

/* Sends what is waiting. Where the judge has ended its last answer is read by
   whoever asks next. */
NMGC_API int nmgc_send(nmgc_judge *judge)
{
  size_t at = 0;
  while (at < judge->used) {
    ssize_t sent = send(judge->socket, judge->text + at, judge->used - at, MSG_NOSIGNAL);
    if (sent >= 0) at += (size_t)sent;
    else if (errno == EPIPE || errno == ECONNRESET) break;
    else if (errno != EINTR) return -1;
  }
  judge->used = 0;
  return 0;
}

/* Appends a piece of text. */
NMGC_API int nmgc_put(nmgc_judge *judge, const char *piece)
{
  size_t length = strlen(piece);
  if (judge->is_refused) return 1;
  if (length > sizeof judge->text) {
    errno = EMSGSIZE;
    return -1;
  }
  if (length > sizeof judge->text - judge->used && nmgc_send(judge) != 0) return -1;
  memcpy(judge->text + judge->used, piece, length);
  judge->used += length;
  for (; *piece; piece++) judge->line += *piece == '\n';
  return 0;
}

/* Reads an answer, without its end: 0 where it is `ok`. */
NMGC_API int nmgc_answer(nmgc_judge *judge)
{
  size_t length = 0;
  while (length < sizeof judge->told - 1) {
    ssize_t got = recv(judge->socket, judge->told + length, sizeof judge->told - 1 - length, 0);
    if (got > 0) length += (size_t)got;
    else if (got == 0) break;
    else if (errno != EINTR) return -1;
    if (length > 0 && judge->told[length - 1] == '\n') break;
  }
  if (length == 0) {
    errno = EPIPE;
    return -1;
  }
  judge->told[length] = 0;
  judge->told[strcspn(judge->told, "\n")] = 0;
  if (strcmp(judge->told, "ok") == 0) return 0;
  judge->is_refused = 1;
  return 1;
}

/* Asks whether all lines so far can happen. */
NMGC_API int nmgc_ask(nmgc_judge *judge)
{
  int put = nmgc_put(judge, "\n");
  if (put != 0) return put;
  return nmgc_send(judge) != 0 ? -1 : nmgc_answer(judge);
}

/* Starts a judge: `program` is nmgc_trace, with its path or on the PATH. Each
   judge that was started has to be ended. */
NMGC_API int nmgc_begin(nmgc_judge *judge, const char *program, unsigned mutators)
{
  int ends[2];
  char head[64];
  if (socketpair(AF_UNIX, SOCK_STREAM | SOCK_CLOEXEC, 0, ends) != 0) return -1;
  judge->process = fork();
  if (judge->process == 0) {
    if (dup2(ends[1], 0) == 0 && dup2(ends[1], 1) == 1)
      execlp(program, program, "--live", (char *)0);
    _exit(127);
  }
  close(ends[1]);
  if (judge->process < 0) {
    close(ends[0]);
    return -1;
  }
  judge->socket = ends[0];
  judge->is_refused = 0;
  judge->line = 0;
  judge->used = 0;
  judge->told[0] = 0;
  snprintf(head, sizeof head, "trace 2\nmutators %u\n", mutators);
  nmgc_put(judge, head);
  return nmgc_ask(judge);
}

/* Tells a command with its answer, as in nmgc_command(judge, "%u set r%u %u r%u = ok", ..).
   It stands where it stands against other commands, so call it under the lock
   under which the load or the store was done. Nothing is asked. */
NMGC_API int nmgc_command(nmgc_judge *judge, const char *format, ...)
{
  char line[1024];
  va_list rest;
  int length;
  va_start(rest, format);
  length = vsnprintf(line, sizeof line - 1, format, rest);
  va_end(rest);
  if (length < 0 || (size_t)length >= sizeof line - 1) {
    errno = EMSGSIZE;
    return -1;
  }
  line[length] = '\n';
  line[length + 1] = 0;
  return nmgc_put(judge, line);
}

/* Tells a name behind a word and a space. */
NMGC_API int nmgc_put_name(nmgc_judge *judge, const char *word, nmgc_name name)
{
  char piece[64];
  if (name == NMGC_SHARED) snprintf(piece, sizeof piece, "%s g", word);
  else snprintf(piece, sizeof piece, "%s %u.%u", word, (unsigned)(name >> 32), (unsigned)name);
  return nmgc_put(judge, piece);
}

/* A cycle begins: the objects, registers and slots as they are now are its
   snapshot. */
NMGC_API int nmgc_mark(nmgc_judge *judge) { return nmgc_put(judge, "mark\n"); }

/* Tells what is in the log as pushed, and empties it. Any time in the cycle,
   and at the latest before nmgc_close. A log that was too small is refused. */
NMGC_API int nmgc_flush(nmgc_judge *judge, nmgc_log *log)
{
  uint32_t i, lost = log->lost;
  for (i = 0; i < log->count; i++) {
    nmgc_put_name(judge, "push -", log->names[i]);
    nmgc_put(judge, "\n");
  }
  log->count = log->lost = 0;
  if (lost > 0 && !judge->is_refused) {
    snprintf(judge->told, sizeof judge->told, "%u names are lost: the log is too small", (unsigned)lost);
    judge->is_refused = 1;
  }
  return judge->is_refused;
}

/* Asks whether all that this mutator's commands made due was pushed. Flush the
   log of its thread first. */
NMGC_API int nmgc_settle(nmgc_judge *judge, unsigned mutator)
{
  nmgc_command(judge, "settle %u", mutator);
  return nmgc_ask(judge);
}

/* The cycle ends, and what neither commands nor pushes keep dies. Flush all
   logs first. */
NMGC_API int nmgc_close(nmgc_judge *judge)
{
  nmgc_put(judge, "close\n");
  return nmgc_ask(judge);
}

/* Tells names behind a word. */
NMGC_API int nmgc_names(nmgc_judge *judge, const char *word, const nmgc_name *names, size_t count)
{
  size_t i;
  nmgc_put(judge, word);
  for (i = 0; i < count; i++) nmgc_put_name(judge, "", names[i]);
  if (count == 0) nmgc_put(judge, " -");
  nmgc_put(judge, "\n");
  return nmgc_ask(judge);
}

/* After nmgc_close: just these objects of the snapshot were marked. */
NMGC_API int nmgc_marked(nmgc_judge *judge, const nmgc_name *names, size_t count)
{
  return nmgc_names(judge, "marked", names, count);
}

/* After nmgc_close: these objects were freed. */
NMGC_API int nmgc_freed(nmgc_judge *judge, const nmgc_name *names, size_t count)
{
  return nmgc_names(judge, "freed", names, count);
}

/* Ends the judge, and answers 0 where the trace is whole: `told` is then what
   was counted. A cycle that goes on makes it 1. */
NMGC_API int nmgc_end(nmgc_judge *judge)
{
  int status = -1;
  if (!judge->is_refused) {
    nmgc_put(judge, "stop\n");
    nmgc_send(judge);
    shutdown(judge->socket, SHUT_WR);
    nmgc_answer(judge);
  }
  close(judge->socket);
  while (waitpid(judge->process, &status, 0) < 0 && errno == EINTR) {}
  if (!WIFEXITED(status)) return -1;
  return WEXITSTATUS(status) == 0 ? 0 : 1;
}

#endif
