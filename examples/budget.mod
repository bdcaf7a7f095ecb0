MODULE Budget;
  (* Money that several processes spend. A spending that would leave the range of INTEGER traps,
     and then nothing of it is kept. *)
  VAR left, spent: INTEGER;

  PROCEDURE Grant*(amount: INTEGER);
  BEGIN left := left + amount END Grant;

  PROCEDURE Spend*(amount: INTEGER; VAR rest: INTEGER);
  BEGIN
    spent := spent + amount;
    left := left - amount;
    rest := left
  END Spend;

  PROCEDURE Show*(VAR l, s: INTEGER);
  BEGIN l := left; s := spent END Show;

BEGIN
  left := 1000
END Budget.
