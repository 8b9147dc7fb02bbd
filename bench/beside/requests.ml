(* The twin of examples/requests.rg: what a request made is found to be garbage, sooner or later. *)
let weighed items = snd (List.fold_left (fun (place, sum) value -> (place + 1, sum + (place * value))) (1, 0) items)

let () =
  let read () = Scanf.scanf " %d" Fun.id in
  let rec items many so_far = if many = 0 then List.rev so_far else let value = read () in items (many - 1) (value :: so_far) in
  let rec serve requests most =
    match read () with
    | exception (End_of_file | Scanf.Scan_failure _) -> Printf.printf "%d\n%d\n" requests most
    | many ->
        let answer = weighed (items many []) in
        Printf.printf "%d\n" answer;
        serve (requests + 1) (max most answer)
  in
  serve 0 0
