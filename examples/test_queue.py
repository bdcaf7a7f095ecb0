"""A test that drives a queue of Python's own from four threads, and asks whether what they saw has a legal order: for pytest.

The module says what the queue is meant to do, as one-thread code. Put your own in its place.
"""
import queue

import obl0

FIFO = """
MODULE Fifo;
  VAR item: ARRAY 64 OF INTEGER; count: INTEGER;
  PROCEDURE Put*(v: INTEGER);
  BEGIN item[count] := v; count := count + 1 END Put;
  PROCEDURE Take*(VAR found: BOOLEAN; VAR v: INTEGER);
    VAR i: INTEGER;
  BEGIN
    found := count > 0;
    IF found THEN
      v := item[0]; i := 1;
      WHILE i < count DO item[i - 1] := item[i]; i := i + 1 END;
      count := count - 1
    END
  END Take;
END Fifo.
"""


def take(shared):
    """What Take answers: whether there was an item, and which."""
    try:
        return True, shared.get_nowait()
    except queue.Empty:
        return False, 0


def work(process, shared, history):
    """Puts and takes by turns."""
    for turn in range(8):
        item = 100 * process + turn
        history.call(process, "Put", item, by=lambda: shared.put(item))
        history.call(process, "Take", by=lambda: take(shared))


def test_queue():
    shared, history = queue.Queue(), obl0.History()
    history.drive(4, lambda process: work(process, shared, history))
    assert obl0.order(FIFO, history).startswith("O ")


if __name__ == "__main__":
    test_queue()
