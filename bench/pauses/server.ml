(* The twin of server.rg: server SESSIONS REQUESTS MODE, where MODE is incremental, as OCaml collects by itself, or whole: a collection of
   the whole heap behind each twentieth request. *)
type session = { mutable hits : int; mutable next : session }
type item = Nothing | Item of { value : int; next : item }

let many, requests, whole = int_of_string Sys.argv.(1), int_of_string Sys.argv.(2), Sys.argv.(3) = "whole"

let ring many =
  let rec first = { hits = 0; next = first } in
  for _ = 2 to many do first.next <- { hits = 0; next = first.next } done;
  first

let fill seed =
  let first = ref Nothing in
  for k = 0 to 99 do first := Item { value = (seed + k) mod 7; next = !first } done;
  !first

let rec turn to_ = function Nothing -> to_ | Item it -> turn (Item { value = it.value; next = to_ }) it.next
let rec sum so_far = function Nothing -> so_far | Item it -> sum (so_far + it.value) it.next

let () =
  let at = ref (ring many) in
  for k = 0 to requests - 1 do
    let first = ref (fill k) in
    for _ = 1 to 9 do first := turn Nothing !first done;
    let sum = sum 0 !first in
    !at.hits <- !at.hits + sum;
    at := !at.next;
    if whole && k mod 20 = 19 then Gc.full_major ();
    let line = string_of_int sum ^ "\n" in
    ignore (Unix.write_substring Unix.stdout line 0 (String.length line))
  done
