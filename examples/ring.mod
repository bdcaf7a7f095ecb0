MODULE Ring;
  (* A queue in a ring: the number that was put first is taken first. *)
  CONST size = 3;
  VAR numbers: ARRAY size OF INTEGER;
    first, count: INTEGER;

  PROCEDURE Put*(number: INTEGER; VAR done: BOOLEAN);
  BEGIN
    done := count < size;
    IF done THEN
      numbers[(first + count) MOD size] := number;
      count := count + 1
    END
  END Put;

  PROCEDURE Take*(VAR done: BOOLEAN; VAR number: INTEGER);
  BEGIN
    done := count > 0;
    IF done THEN
      number := numbers[first];
      first := (first + 1) MOD size;
      count := count - 1
    END
  END Take;

  (* Takes all numbers, and tells how many they were, and their sum. *)
  PROCEDURE TakeAll*(VAR taken, sum: INTEGER);
    VAR done: BOOLEAN;
      number: INTEGER;
  BEGIN
    REPEAT
      Take(done, number);
      IF done THEN
        taken := taken + 1;
        sum := sum + number
      END
    UNTIL ~done
  END TakeAll;
END Ring.
