/* Writes what OCaml's major collector and its write barrier do as a trace of
   nmgc (docs/GUIDE.md, "Check a barrier by a trace").

   The linker's --wrap puts __wrap_F in place of the runtime's F, which stays
   callable as __real_F. Nothing of OCaml's source is here.

   An object of the trace is a block of tag 0 whose field 0 is its name, as an
   OCaml integer. Registers are C roots: the collector reads them as a cycle
   begins, and no barrier stands before them. */
#define CAML_INTERNALS
#include "../common/lines.h"
#include <stdlib.h>
#include <caml/gc.h>
#include <caml/major_gc.h>
#include <caml/memory.h>
#include <caml/misc.h>
#include <caml/minor_gc.h>
#include <caml/mlvalues.h>

#define REGISTERS 16

static value registers[REGISTERS];
static int is_planted;      /* the barrier remembers nothing */
static int is_in_command;   /* between an access and its lines */

static long name_of(value v)
{
  if (!Is_block(v) || Tag_val(v) != 0 || Wosize_val(v) == 0
      || !Is_long(Field(v, 0)) || !IS_NAME(Long_val(Field(v, 0))))
    return 0;
  return Long_val(Field(v, 0));
}

/* Marking. A cycle begins with a darkening of the roots. */

void __real_caml_darken_all_roots_start(void);
void __wrap_caml_darken_all_roots_start(void)
{
  lines_mark();
  if (is_in_command) lines_give_up("marking began inside a command");
  __real_caml_darken_all_roots_start();
}

/* At the end of each slice: has marking ended? Then the black objects of the
   major heap are those that it has marked, and those made since. */
static void slice_has_ended(void)
{
  long *names = NULL, count = 0, room = 0;
  if (!lines_are_marking() || caml_gc_phase == Phase_mark) return;
  if (is_in_command) {
    lines_give_up("marking ended inside a command");
    return;
  }
  for (char *chunk = caml_heap_start; chunk != NULL; chunk = Chunk_next(chunk))
    for (char *p = chunk; p < chunk + Chunk_size(chunk); p += Bhsize_hp(p)) {
      long name = Color_hp(p) == Caml_black ? name_of(Val_hp(p)) : 0;
      if (name == 0) continue;
      if (count == room) {
        room = 2 * room + 1024;
        names = realloc(names, room * sizeof(long));
      }
      names[count++] = name;
    }
  lines_close(names, count);
  free(names);
}

/* The barrier: what darkens in the course of a command. */

void __real_caml_darken(value v, value *p);
void __wrap_caml_darken(value v, value *p)
{
  long name = is_in_command ? name_of(v) : 0;
  if (name != 0) {
    if (is_planted) return;
    lines_remembered(name);
  }
  __real_caml_darken(v, p);
}

/* What the program calls. None of these allocates in OCaml's heap. */

value nm_start(value folder, value seed, value planted)
{
  lines_start(String_val(folder));
  lines_seed(Long_val(seed));
  is_planted = Bool_val(planted);
  for (int i = 0; i < REGISTERS; i++) {
    registers[i] = Val_long(NIL);
    caml_register_global_root(&registers[i]);
  }
  caml_major_slice_end_hook = slice_has_ended;
  return Val_unit;
}

value nm_below(value n) { return Val_long(lines_below(Long_val(n))); }
value nm_get(value at) { return registers[Long_val(at)]; }

value nm_put(value at, value v)
{
  registers[Long_val(at)] = v;
  return Val_unit;
}

value nm_begin(value unit) { is_in_command = 1; return unit; }

value nm_end(value unit)
{
  is_in_command = 0;
  lines_settle();
  return unit;
}

value nm_line(value command, value a, value b, value c, value d, value e,
              value count, value answer)
{
  const long words[5] = { Long_val(a), Long_val(b), Long_val(c), Long_val(d),
    Long_val(e) };
  lines_command(Long_val(command), words, Long_val(count), Long_val(answer));
  return Val_unit;
}

value nm_unused(void) { abort(); }   /* nm_line for bytecode */

value nm_is_young(value v) { return Val_bool(Is_block(v) && Is_young(v)); }
value nm_cycles(value unit) { (void)unit; return Val_long(lines_cycles()); }
