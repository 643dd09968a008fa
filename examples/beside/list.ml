(* list.ml N: the load of list.go, by one domain. ocamlopt -O3 list.ml -o list_ml *)
type cell = Nil | Cell of { number : int; rest : cell }

let made number =
  let list = ref Nil in
  for _ = 1 to 1024 do list := Cell { number; rest = !list } done;
  !list

let () =
  let kept = int_of_string Sys.argv.(1) in
  let lists = Array.make kept Nil in
  for i = 0 to 3 * kept - 1 do lists.(i mod kept) <- made i done;
  let cells = ref 0 and sum = ref 0 in
  let rec add = function
    | Nil -> ()
    | Cell { number; rest } -> incr cells; sum := !sum + number; add rest in
  Array.iter add lists;
  Printf.printf "cells %d\nsum %d\n" !cells !sum
