MODULE Bank;
  (* Accounts between which money is moved. There is never more of it, and never less. *)
  CONST accounts = 2; money = 100;
  VAR left: ARRAY accounts OF INTEGER;

  PROCEDURE Transfer*(from, to, amount: INTEGER; VAR moved: BOOLEAN);
  BEGIN
    moved := (amount >= 0) & (amount <= left[from]);
    IF moved THEN
      left[from] := left[from] - amount;
      left[to] := left[to] + amount
    END
  END Transfer;

  (* A transfer in two calls. *)
  PROCEDURE Withdraw*(from, amount: INTEGER; VAR taken: BOOLEAN);
  BEGIN
    taken := (amount >= 0) & (amount <= left[from]);
    IF taken THEN left[from] := left[from] - amount END
  END Withdraw;

  PROCEDURE Deposit*(to, amount: INTEGER);
  BEGIN left[to] := left[to] + amount END Deposit;

  (* The accounts have all money together. *)
  PROCEDURE TotalStays*(VAR holds: BOOLEAN);
    VAR i, total: INTEGER;
  BEGIN
    total := 0;
    i := 0;
    WHILE i < accounts DO
      total := total + left[i];
      i := i + 1
    END;
    holds := total = money
  END TotalStays;

BEGIN
  left[0] := money
END Bank.
