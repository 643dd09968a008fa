(* trees.ml N: the lines of nmgc_trees N, by one domain. ocamlfind ocamlopt -O3 -package unix -linkpkg trees.ml *)
type tree = Leaf | Node of tree * tree

let rec build d = if d = 0 then Node (Leaf, Leaf) else let l = build (d - 1) in Node (l, build (d - 1))
let rec count = function Leaf -> 0 | Node (l, r) -> 1 + count l + count r

let () =
  let n = int_of_string Sys.argv.(1) in
  let began = Unix.gettimeofday () in
  Printf.printf "stretch tree of depth %d\t check: %d\n" (n + 1) (count (build (n + 1)));
  let long = build n in
  let d = ref 4 in
  while !d <= n do
    let all = 1 lsl (n - !d + 4) in
    let sum = ref 0 in
    for _ = 1 to all do sum := !sum + count (build !d) done;
    Printf.printf "%d\t trees of depth %d\t check: %d\n" all !d !sum;
    d := !d + 2
  done;
  Printf.printf "long lived tree of depth %d\t check: %d\n" n (count long);
  Printf.eprintf "%.0f ms\n" ((Unix.gettimeofday () -. began) *. 1000.)
