(* table.ml N: the load of table.go, by one domain. ocamlopt -O3 table.ml -o table_ml *)
type entry = { key : int; again : int }

let keys = 64000
let table : entry option array = Array.make keys None

let number state =
  let open Int64 in
  state := add !state 0x9E3779B97F4A7C15L;
  let n = !state in
  let n = mul (logxor n (shift_right_logical n 30)) 0xBF58476D1CE4E5B9L in
  let n = mul (logxor n (shift_right_logical n 27)) 0x94D049BB133111EBL in
  logxor n (shift_right_logical n 31)

let below state bound = Int64.to_int (Int64.unsigned_rem (number state) (Int64.of_int bound))

let () =
  let operations = int_of_string Sys.argv.(1) in
  let lane = ref 0L in
  let state = ref (Int64.add 1L (number lane)) in
  let wrong = ref 0 in
  for _ = 1 to operations do
    let kind = below state 2 in
    let key = below state keys in
    if kind = 0 then table.(key) <- Some { key; again = key }
    else match table.(key) with
      | Some e when e.key <> key || e.again <> key -> incr wrong
      | _ -> ()
  done;
  Printf.printf "operations %d\nwrong %d\n" operations !wrong
