MODULE Accounts;
  (* A budget in accounts. What an account has can be spent, or moved to another one. *)
  CONST accounts = 4;
  TYPE Account = RECORD left, spent: INTEGER END;
  VAR budget: ARRAY accounts OF Account;

  PROCEDURE Move(amount: INTEGER; VAR from, to: INTEGER);
  BEGIN
    from := from - amount;
    to := to + amount
  END Move;

  PROCEDURE Test(account, amount: INTEGER; VAR allowed: BOOLEAN);
  BEGIN allowed := (amount >= 0) & (amount <= budget[account].left) END Test;

  PROCEDURE Grant*(account, amount: INTEGER);
  BEGIN budget[account].left := budget[account].left + amount END Grant;

  PROCEDURE Spend*(account, amount: INTEGER; VAR allowed: BOOLEAN);
  BEGIN
    Test(account, amount, allowed);
    IF allowed THEN Move(amount, budget[account].left, budget[account].spent) END
  END Spend;

  (* To an account that isn't there nothing is moved: the call traps. *)
  PROCEDURE Transfer*(from, to, amount: INTEGER; VAR allowed: BOOLEAN);
  BEGIN
    Test(from, amount, allowed);
    IF allowed THEN Move(amount, budget[from].left, budget[to].left) END
  END Transfer;

  PROCEDURE Show*(account: INTEGER; VAR left, spent: INTEGER);
  BEGIN
    left := budget[account].left;
    spent := budget[account].spent
  END Show;

  PROCEDURE Total*(VAR left, spent: INTEGER);
    VAR i: INTEGER;
  BEGIN
    left := 0;
    spent := 0;
    i := 0;
    WHILE i < accounts DO
      left := left + budget[i].left;
      spent := spent + budget[i].spent;
      i := i + 1
    END
  END Total;

BEGIN
  budget[0].left := 1000
END Accounts.
