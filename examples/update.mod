MODULE Update;
  (* Clients that add one to x, each by a read and then a write. What one of them adds can be lost. *)
  CONST clients = 2;
  VAR x, made: INTEGER; seen: ARRAY clients OF INTEGER;

  PROCEDURE Read*(client: INTEGER; VAR v: INTEGER);
  BEGIN
    v := x;
    seen[client] := x
  END Read;

  PROCEDURE Write*(client: INTEGER);
  BEGIN
    x := seen[client] + 1;
    made := made + 1
  END Write;

  (* Each write has added one. *)
  PROCEDURE NothingLost*(VAR holds: BOOLEAN);
  BEGIN holds := x = made END NothingLost;
END Update.
