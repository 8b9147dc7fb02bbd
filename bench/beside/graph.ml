(* The twin of examples/graph.rg: outside of `Graph` its nodes are `private`, so they are read and not written. *)
module Graph : sig
  type node = private { number : int; mutable edges : node list }
  val ring : int -> node
end = struct
  type node = { number : int; mutable edges : node list }

  let ring many =
    let nodes = Array.init many (fun number -> { number; edges = [] }) in
    let lead k to_ = nodes.(k).edges <- nodes.(to_) :: nodes.(k).edges in
    for k = 1 to many - 1 do lead (k - 1) k; lead k (k - 1) done;
    lead (many - 1) 0;
    lead 0 (many - 1);
    nodes.(many - 1)
end

type walker = { mutable at : Graph.node; mutable sum : int }

let step walker takes_first =
  walker.at <- List.nth walker.at.edges (if takes_first then 0 else 1);
  walker.sum <- walker.sum + walker.at.number

let () =
  let start = Graph.ring 5 in
  let one, two = ({ at = start; sum = 0 }, { at = start; sum = 0 }) in
  for k = 0 to 6 do
    step one (k mod 3 = 1);
    Printf.printf "%d\n" one.at.number;
    step two (k mod 2 = 0)
  done;
  Printf.printf "%b\n%d\n%d\n" (one.at == two.at) one.sum two.sum
