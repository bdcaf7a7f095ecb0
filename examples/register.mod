MODULE Register;
  VAR kept: INTEGER;

  PROCEDURE Read*(VAR value: INTEGER);
  BEGIN value := kept
  END Read;

  PROCEDURE Write*(value: INTEGER);
  BEGIN kept := value
  END Write;

  PROCEDURE CompareAndSet*(old, new: INTEGER; VAR done: BOOLEAN);
  BEGIN
    done := kept = old;
    IF done THEN kept := new END
  END CompareAndSet;

END Register.
