MODULE Table;
  (* Keys with their values, of which there is room for a few. *)
  CONST size = 3;
  TYPE Entry = RECORD key, value: INTEGER END;
  VAR entries: ARRAY size OF Entry;
    count: INTEGER;

  (* The entry of a key; count where there is none. *)
  PROCEDURE Find(key: INTEGER; VAR at: INTEGER);
  BEGIN
    at := 0;
    WHILE (at < count) & (entries[at].key # key) DO at := at + 1 END
  END Find;

  (* Gives a key its value, where there is room. *)
  PROCEDURE Put*(key, value: INTEGER; VAR done: BOOLEAN);
    VAR at: INTEGER;
  BEGIN
    Find(key, at);
    done := at < size;
    IF done THEN
      IF at = count THEN
        count := count + 1;
        entries[at].key := key
      END;
      entries[at].value := value
    END
  END Put;

  PROCEDURE Get*(key: INTEGER; VAR found: BOOLEAN; VAR value: INTEGER);
    VAR at: INTEGER;
  BEGIN
    Find(key, at);
    found := at < count;
    IF found THEN value := entries[at].value END
  END Get;

  (* The last entry takes the place of the one that goes. *)
  PROCEDURE Remove*(key: INTEGER; VAR found: BOOLEAN);
    VAR at: INTEGER;
  BEGIN
    Find(key, at);
    found := at < count;
    IF found THEN
      count := count - 1;
      entries[at].key := entries[count].key;
      entries[at].value := entries[count].value
    END
  END Remove;
END Table.
