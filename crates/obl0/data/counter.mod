MODULE Counter;
  VAR x: INTEGER;
  PROCEDURE Inc*;
  BEGIN x := x + 1 END Inc;
  PROCEDURE Get*(VAR v: INTEGER);
  BEGIN v := x END Get;
END Counter.
