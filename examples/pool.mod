MODULE Pool;
  (* Numbered slots that processes take and give back. *)
  CONST slots = 3;
  VAR taken: ARRAY slots OF BOOLEAN;
    left: INTEGER;

  (* Takes the free slot with the lowest number, where there is one. *)
  PROCEDURE Take*(VAR found: BOOLEAN; VAR slot: INTEGER);
    VAR i: INTEGER;
  BEGIN
    i := 0;
    WHILE (i < slots) & taken[i] DO i := i + 1 END;
    found := i < slots;
    IF found THEN
      taken[i] := TRUE;
      left := left - 1;
      slot := i
    END
  END Take;

  (* Gives a slot back. A number that is none of a slot traps. *)
  PROCEDURE Give*(slot: INTEGER; VAR was: BOOLEAN);
  BEGIN
    was := taken[slot];
    taken[slot] := FALSE;
    IF was THEN left := left + 1 END
  END Give;

  PROCEDURE Left*(VAR count: INTEGER);
  BEGIN count := left END Left;

BEGIN
  left := slots
END Pool.
