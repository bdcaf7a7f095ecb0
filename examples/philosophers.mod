MODULE Philosophers;
  (* Philosophers at a round table, with a fork between two of them. Who has both forks eats. *)
  CONST seats = 3; nobody = -1;
  VAR holder: ARRAY seats OF INTEGER;

  PROCEDURE Take(philosopher, fork: INTEGER; VAR taken: BOOLEAN);
  BEGIN
    taken := holder[fork] = nobody;
    IF taken THEN holder[fork] := philosopher END
  END Take;

  PROCEDURE Left*(philosopher: INTEGER; VAR taken: BOOLEAN);
  BEGIN Take(philosopher, philosopher, taken) END Left;

  PROCEDURE Right*(philosopher: INTEGER; VAR taken: BOOLEAN);
  BEGIN Take(philosopher, (philosopher + 1) MOD seats, taken) END Right;

  (* A philosopher lays down what forks are in hand. *)
  PROCEDURE Down*(philosopher: INTEGER);
    VAR fork: INTEGER;
  BEGIN
    fork := 0;
    WHILE fork < seats DO
      IF holder[fork] = philosopher THEN holder[fork] := nobody END;
      fork := fork + 1
    END
  END Down;

  (* A fork lies on the table, or somebody eats. *)
  PROCEDURE SomebodyGoesOn*(VAR holds: BOOLEAN);
    VAR fork: INTEGER;
  BEGIN
    holds := FALSE;
    fork := 0;
    WHILE fork < seats DO
      IF (holder[fork] = nobody) OR (holder[fork] = holder[(fork + 1) MOD seats]) THEN holds := TRUE END;
      fork := fork + 1
    END
  END SomebodyGoesOn;

  PROCEDURE Open;
    VAR fork: INTEGER;
  BEGIN
    fork := 0;
    WHILE fork < seats DO
      holder[fork] := nobody;
      fork := fork + 1
    END
  END Open;

BEGIN
  Open
END Philosophers.
