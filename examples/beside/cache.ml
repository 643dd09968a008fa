(* cache.ml N [SEED]: the load of nmgc_cache by one domain. ocamlfind ocamlopt -O3 -package unix -linkpkg cache.ml
   Weak pointers are Weak arrays of one field; finalisers count evictions. *)
type value = { key : int; version : int }

let keys = 32000
let shards = 8
let entries = 2000
let index : value Weak.t option array = Array.make keys None
let rings : value option array array = Array.init shards (fun _ -> Array.make entries None)
let counts = Array.make shards 0
let evictions = ref 0

let state = ref 0L
let number () =
  let open Int64 in
  state := add !state 0x9E3779B97F4A7C15L;
  let n = !state in
  let n = mul (logxor n (shift_right_logical n 30)) 0xBF58476D1CE4E5B9L in
  let n = mul (logxor n (shift_right_logical n 27)) 0x94D049BB133111EBL in
  logxor n (shift_right_logical n 31)

let below bound = Int64.to_int (Int64.unsigned_rem (number ()) (Int64.of_int bound))

let known = Array.make keys 0
let wrong = ref 0
let hits = ref 0
let missed = ref 0

let put key version =
  let v = { key; version } in
  Gc.finalise_last (fun () -> incr evictions) v;
  let w = Weak.create 1 in
  Weak.set w 0 (Some v);
  let s = key mod shards in
  rings.(s).(counts.(s) mod entries) <- Some v;
  counts.(s) <- counts.(s) + 1;
  index.(key) <- Some w

let read key refill =
  match Option.bind index.(key) (fun w -> Weak.get w 0) with
  | Some v -> incr hits; if v.key <> key || v.version <> known.(key) then incr wrong
  | None -> incr missed; if refill && known.(key) > 0 then put key known.(key)

let () =
  let operations = int_of_string Sys.argv.(1) in
  let seed = if Array.length Sys.argv > 2 then Int64.of_string Sys.argv.(2) else 1L in
  let began = Unix.gettimeofday () in
  state := 0L;
  let lane = number () in
  state := Int64.add seed lane;
  for _ = 1 to operations do
    let kind = below 100 in
    let bound = below keys in
    let key = below (bound + 1) in
    if kind < 9 then begin known.(key) <- known.(key) + 1; put key known.(key) end
    else if kind < 10 then for i = 0 to 7 do read ((key + i) mod keys) (i = 7) done
    else read key true
  done;
  Printf.printf "operations %d\nwrong %d\n" operations !wrong;
  Printf.eprintf "%d hits, %d missed, %d evictions, %.0f ms\n" !hits !missed !evictions ((Unix.gettimeofday () -. began) *. 1000.)
