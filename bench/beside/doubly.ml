(* The twin of examples/doubly.rg. *)
type node = { value : int; mutable before : node option; mutable behind : node option }
type list = { mutable first : node option; mutable last : node option }

let push list value =
  let node = Some { value; before = list.last; behind = None } in
  (match list.last with None -> list.first <- node | Some last -> last.behind <- node);
  list.last <- node

let take_out list node =
  (match node.before with None -> list.first <- node.behind | Some before -> before.behind <- node.behind);
  match node.behind with None -> list.last <- node.before | Some behind -> behind.before <- node.before

let rec thin list number = function
  | None -> ()
  | Some node ->
      if node.value mod number = 0 then take_out list node;
      thin list number node.behind

let rec sum next so_far = function None -> so_far | Some node -> sum next ((so_far * 3) + node.value) (next node)

let () =
  let list = { first = None; last = None } in
  for k = 1 to 10 do push list k done;
  thin list 2 list.first;
  Printf.printf "%d\n" (sum (fun node -> node.behind) 0 list.first);
  Printf.printf "%d\n" (sum (fun node -> node.before) 0 list.last);
  (* Nothing freezes it: a module may hide `before` and `behind` behind a type that nobody else may write. *)
  let first, last = (Option.get list.first, Option.get list.last) in
  Printf.printf "%b\n%d\n" (Option.get (Option.get first.behind).before == first) last.value
