(* A mutator that draws commands at random and does each with OCaml's own
   allocation, load and store. tracer.c writes the lines.

     mutator FOLDER SEED COMMANDS MODE

   MODE says how:
     as_is      nothing special
     promoted   each new object leaves the minor heap at once
     weak       the same, and the fourth cycle, the last one, has ephemerons
   With -planted after it the barrier remembers nothing. *)

external start : string -> int -> bool -> unit = "nm_start"
external below : int -> int = "nm_below" [@@noalloc]
external reg : int -> Obj.t = "nm_get" [@@noalloc]
external put : int -> Obj.t -> unit = "nm_put" [@@noalloc]
external begin_ : unit -> unit = "nm_begin" [@@noalloc]
external end_ : unit -> unit = "nm_end" [@@noalloc]
external line : int -> int -> int -> int -> int -> int -> int -> int -> unit
  = "nm_unused" "nm_line" [@@noalloc]
external is_young : Obj.t -> bool = "nm_is_young" [@@noalloc]
external cycles : unit -> int = "nm_cycles" [@@noalloc]

(* Numbers of lines.h. *)
let shared = 0 and con_ = 1 and var_ = 2 and arr_ = 3 and weak_ = 4
let ok = -2 and yes = -3 and no = -4 and nopointer = -5 and nofield = -6
let wrongkind = -7 and fixed = -8 and dead = -9

(* Every object carries its name first. *)
type var = { var_name : int; mutable contents : Obj.t }
type weak = { weak_name : int; pointer : (Obj.t, Obj.t) Ephemeron.K1.t }

let nil = Obj.repr (-1)
let name serial kind = (0x5eed lsl 44) lor (serial lsl 3) lor kind
let code v : int = if Obj.is_int v then Obj.obj v else Obj.obj (Obj.field v 0)
let kind v = if Obj.is_int v then -1 else code v land 7

let g = Obj.repr (Array.make 17 nil)
let serial = ref 0
let fresh kind = let n = name !serial kind in incr serial; n

(* Operand 16 is g. *)
let value a = if a = 16 then g else reg a
let register () = below 16
let operand () = if below 20 = 0 then 16 else register ()

(* Mostly a register that refers to an object of such a kind. *)
let rec referring kinds tries =
  let r = register () in
  if tries = 0 || List.mem (kind (reg r)) kinds then r
  else referring kinds (tries - 1)
let container kinds = if below 4 = 0 then 16 else referring kinds 8

let fields v =
  if kind v = var_ then 1
  else if kind v = weak_ || Obj.is_int v then 0
  else Obj.size v - 1
let field_number v =
  if fields v > 0 && below 20 > 0 then below (fields v) else below 3

(* From the access to its last line nothing is allocated, so no cycle begins or
   ends between: tracer.c gives a trace up where one does. *)

let made d v command a b c e count =
  line command d a b c e count (code v);
  put d v

let con d =
  let a = operand () and b = operand () and c = operand () in
  match below 4 with
  | 0 -> made d (Obj.repr (ref (fresh con_))) 3 0 0 0 0 2
  | 1 -> made d (Obj.repr (fresh con_, value a)) 3 1 a 0 0 3
  | 2 -> made d (Obj.repr (fresh con_, value a, value b)) 3 2 a b 0 4
  | _ -> made d (Obj.repr (fresh con_, value a, value b, value c)) 3 3 a b c 5

let var d =
  let a = operand () in
  made d (Obj.repr { var_name = fresh var_; contents = value a }) 4 a 0 0 0 2

(* A count of 300 is beyond what the minor heap takes. *)
let arr d =
  let a = operand () and count = if below 30 = 0 then 300 else below 7 in
  let o = Array.make (count + 1) (Obj.repr (fresh arr_)) in
  Array.fill o 1 count (value a);
  made d (Obj.repr o) 5 count a 0 0 3

let get d =
  let a = container [con_; var_; arr_] in
  let o = value a in
  let i = field_number o in
  let refused why = line 7 d a i 0 0 3 why in
  if Obj.is_int o then refused nopointer
  else if kind o = weak_ then refused wrongkind
  else if i >= fields o then refused nofield
  else begin
    let v = Obj.field o (i + 1) in
    line 7 d a i 0 0 3 (code v);
    put d v
  end

(* The stores, each as OCaml compiles it. *)
let store o i v =
  if kind o = var_ then (Obj.obj o : var).contents <- v
  else (Obj.obj o : Obj.t array).(i + 1) <- v

let refusal o i =
  if Obj.is_int o then nopointer
  else if kind o = con_ then fixed
  else if kind o = weak_ then wrongkind
  else if i >= fields o then nofield
  else ok

let set () =
  let a = container [var_; arr_] and b = operand () in
  let o = value a in
  let i = field_number o in
  let answer = refusal o i in
  if answer <> ok then line 8 a i b 0 0 3 answer
  else begin
    begin_ ();
    store o i (value b);
    line 8 a i b 0 0 3 ok;
    end_ ()
  end

let cas () =
  let a = container [var_; arr_] and e = operand () and b = operand () in
  let o = value a in
  let i = field_number o in
  let answer = refusal o i in
  if answer <> ok then line 9 a i e b 0 4 answer
  else begin
    let old = Obj.field o (i + 1) in
    begin_ ();
    if old == value e then begin
      store o i (value b);
      line 9 a i e b 0 4 yes
    end else line 9 a i e b 0 4 no;
    end_ ()
  end

(* Array.blit of up to three elements: a load and a store for each, by r15. Where
   an array is copied into itself, from the side that isn't overwritten. *)
let blit () =
  let a = container [arr_] and b = container [arr_] in
  let o = value a and p = value b in
  let n = 1 + below 3 and i = below 20 and j = below 20 in
  let is_array v = kind v = arr_ || kind v = shared in
  if a <> 15 && b <> 15 && is_array o && is_array p
     && i + n <= fields o && j + n <= fields p then begin
    let x : Obj.t array = Obj.obj o and y : Obj.t array = Obj.obj p in
    let news = Array.init n (fun k -> code x.(i + k + 1)) in
    let last = x.(if i < j then i + 1 else i + n) in
    begin_ ();
    Array.blit x (i + 1) y (j + 1) n;
    for t = 0 to n - 1 do
      let k = if i < j then n - 1 - t else t in
      line 7 15 a (i + k) 0 0 3 news.(k);
      line 8 b (j + k) 15 0 0 3 ok
    done;
    end_ ();
    put 15 last
  end

(* Array.fill of up to three elements. It stores nothing where the value stands
   there already. *)
let fill () =
  let a = container [arr_] and b = operand () in
  let o = value a and n = 1 + below 3 and i = below 20 in
  if (kind o = arr_ || kind o = shared) && i + n <= fields o then begin
    let x : Obj.t array = Obj.obj o in
    let olds = Array.init n (fun k -> code x.(i + k + 1)) in
    begin_ ();
    Array.fill x (i + 1) n (value b);
    let now = code (value b) in
    for k = 0 to n - 1 do
      if olds.(k) <> now then line 8 a (i + k) b 0 0 3 ok
    done;
    end_ ()
  end

(* Ephemerons are weak pointers without finalisers. A key in the minor heap could
   die before there is a cycle, so there is none; and `pointers` keeps all
   ephemerons, as a list of weak pointers would. *)
let pointers = ref []

let weak d =
  let k = referring [con_; var_; arr_] 8 and a = operand ()
  and f = register () in
  if Obj.is_block (reg k) && not (is_young (reg k)) && Obj.is_int (reg f)
  then begin
    let pointer = Ephemeron.K1.create () in
    Ephemeron.K1.set_key pointer (reg k);
    Ephemeron.K1.set_data pointer (value a);
    pointers := pointer :: !pointers;
    made d (Obj.repr { weak_name = fresh weak_; pointer }) 6 k a f 0 4
  end

let deref d =
  let a = referring [weak_] 8 in
  let o = reg a in
  if kind o <> weak_ then
    line 10 d a 0 0 0 2 (if Obj.is_int o then nopointer else wrongkind)
  else begin
    begin_ ();
    match Ephemeron.K1.get_data (Obj.obj o : weak).pointer with
    | None -> line 10 d a 0 0 0 2 dead; end_ ()
    | Some v -> line 10 d a 0 0 0 2 (code v); end_ (); put d v
  end

let command () =
  let d = register () in
  match below 100 with
  | n when n < 10 ->
    let k = below 100 in
    line 0 d k 0 0 0 2 ok;
    put d (Obj.repr k)
  | n when n < 16 -> line 1 d 0 0 0 0 1 ok; put d nil
  | n when n < 22 ->
    let a = operand () in
    line 2 d a 0 0 0 2 ok;
    put d (value a)
  | n when n < 36 -> con d
  | n when n < 46 -> var d
  | n when n < 52 -> arr d
  | n when n < 72 -> get d
  | n when n < 88 -> set ()
  | n when n < 92 -> cas ()
  | n when n < 96 -> blit ()
  | _ -> fill ()

let command_or_weak () =
  match below 100 with
  | n when n < 10 -> weak (register ())
  | n when n < 30 -> deref (register ())
  | _ -> command ()

(* A cycle begins only where the minor heap is empty. *)
let collect () =
  match below 40 with
  | 0 -> Gc.minor (); ignore (Gc.major_slice 1)
  | 1 | 2 -> Gc.minor ()
  | 3 | 4 | 5 -> ignore (Gc.major_slice (1 + below 200))
  | _ -> ()

let () =
  let folder = Sys.argv.(1) and seed = int_of_string Sys.argv.(2)
  and commands = int_of_string Sys.argv.(3) in
  let mode, planted = match String.split_on_char '-' Sys.argv.(4) with
    | [mode; "planted"] -> mode, true
    | _ -> Sys.argv.(4), false in
  Obj.set_field g 0 (Obj.repr (name 0 shared));
  Gc.set { (Gc.get ()) with space_overhead = 1000; max_overhead = 1000000 };
  start folder seed planted;
  let n = ref 0 in
  (* In later cycles a trace could not tell which ephemerons died. *)
  while !n < commands && not (mode = "weak" && cycles () > 3) do
    incr n;
    if mode = "weak" && cycles () = 3 then command_or_weak () else command ();
    if mode <> "as_is" then Gc.minor ();
    collect ()
  done
