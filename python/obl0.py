"""Modules of Oberon-0 as objects that several processes share: what the program `obl0` answers, for Python.

A module is the text of one-thread code, a script one of calls, a schedule one of who steps, a record one of what a run showed, and a
history one of what somebody saw of any object: each is a str, or bytes of UTF-8. `check`, `seq`, `run`, `state`, `verify`, `order`,
`draw`, `explain` and `bound` answer as the commands of these names do, and `page` says what a fault is; `answer` takes any words of the
command line but `serve`, and any files.

    import obl0
    module = open("examples/counter.mod").read()
    obl0.seq(module, "0 Inc\\n0 Get\\n")          # ["E 0.1 done", "E 0.2 done 1"]
    obl0.order(module, "B 0.1 Inc\\nE 0.1 done")  # "O 0.1"

A fault is raised as `Fault`, whose text is its line, as `X1 1.2`. All is done by the library libobl0.so, which lies beside this file,
in dist/ of the repository, or where OBL0_LIBRARY says. Any number of threads may call at once; while a call works, others run. A call
takes at most 8 MiB of stack: a thread that asks of modules with deep nesting wants `threading.stack_size` before it.

`Object` is a module as a living object, whose procedures are called one at a time; `History` writes down what threads see of an object
of your own.
"""
from __future__ import annotations

import ctypes
import json
import operator
import os
import re
import threading
from dataclasses import dataclass, field
from pathlib import Path
from typing import Any, Callable, Dict, List, Mapping, NamedTuple, Optional, Sequence, Tuple, Union

Text = Union[str, bytes]
Value = Union[int, bool, List[Any], Dict[str, Any]]

__all__ = [
    "Answer", "Event", "Fault", "History", "Object", "Process", "Record", "State", "Trap", "answer", "bound", "check", "draw", "explain", "order",
    "page", "run", "seq", "state", "verify",
]

MEMORY = 4


class Fault(Exception):
    """What is wrong with a text, or with words: the line that the program prints, and its status."""

    def __init__(self, line: str, status: int) -> None:
        super().__init__(line)
        self.line = line
        self.status = status

    @property
    def number(self) -> str:
        """The number of the fault, as `X1`; of a mistake in the words it is empty."""
        return self.line.split(" ", 1)[0].strip() if self.status == 1 else ""


class Answer(NamedTuple):
    """What the program answers: its status, and what it prints on standard output and on standard error."""

    status: int
    out: bytes
    err: bytes


def _library() -> ctypes.CDLL:
    here = Path(__file__).resolve().parent
    named = os.environ.get("OBL0_LIBRARY")
    places = [Path(named)] if named else [here / "libobl0.so", here.parent / "dist" / "libobl0.so"]
    for place in places:
        if place.exists():
            return ctypes.CDLL(str(place))
    raise ImportError(f"obl0: no library at {', '.join(map(str, places))}")


_LIBRARY = _library()
_SIZE = ctypes.c_size_t
_ROOM = 1 << 16


def _bytes(text: "Union[Text, Record, History]") -> bytes:
    return bytes(text) if isinstance(text, (bytes, bytearray, memoryview)) else str(text).encode()


def _joined(texts: Sequence[bytes]) -> list:
    lengths = (_SIZE * max(len(texts), 1))(*map(len, texts))
    return [ctypes.c_char_p(b"".join(texts)), _SIZE(sum(map(len, texts))), lengths, _SIZE(len(texts))]


def answer(words: Sequence[Text], files: Mapping[str, Union[Text, Record, History]] = {}) -> Answer:
    """The answer to words of the command line, behind the program's name, and to the files that they name.

    No file of the system is read. `serve` is answered with status 2. Raises MemoryError where there is no memory.
    """
    texts = _joined([_bytes(it) for it in words]), _joined([_bytes(it) for pair in files.items() for it in pair])
    asked = texts[0] + texts[1]
    # Most answers are no longer than that: what has no room is worked out once more.
    room_length = _ROOM + 2 * texts[1][1].value
    while True:
        room, output, length = ctypes.create_string_buffer(room_length), _SIZE(), _SIZE()
        status = _LIBRARY.obl0_answer(*asked, room, _SIZE(room_length), ctypes.byref(output), ctypes.byref(length))
        if status == MEMORY:
            raise MemoryError("obl0: no memory for the answer")
        if length.value <= room_length:
            said = room.raw[: length.value]
            return Answer(status, said[: output.value], said[output.value :])
        room_length = length.value


def _printed(words: Sequence[Text], files: Mapping[str, Union[Text, Record, History]]) -> Answer:
    """The answer, where it is what was asked for; else the fault is raised."""
    given = answer(words, files)
    if given.status:
        raise Fault(given.err.decode().rstrip("\n"), given.status)
    return given


def _option(name: str, value: Optional[object]) -> List[str]:
    return [] if value is None else [name, str(value)]


def check(module: Text) -> None:
    """Raises the first fault of a module, if it has one."""
    _printed(["check", "module"], {"module": module})


def seq(module: Text, script: Text, *, turns: Optional[int] = None, start: Union[Record, Text, None] = None) -> List[str]:
    """The lines of the replies to a script's calls, made one at a time, each with a budget of turns.

    With `start`, a record, the object begins with the values of its V lines.
    """
    files = {"module": module, "script": script, **({} if start is None else {"start": start})}
    words = ["seq", "module", "script", *_option("-b", turns), *([] if start is None else ["--from", "start"])]
    return _printed(words, files).out.decode().splitlines()


class Event(NamedTuple):
    """A call begins (`B`) or ends (`E`): its process, the number of the call there, and the words behind, as `Put 7` or `done TRUE`."""

    kind: str
    process: int
    call: int
    said: str


@dataclass(frozen=True)
class Record:
    """What a run showed."""

    text: str
    """The record as it is printed, for `verify`, `draw` and `start`."""
    processes: int
    turns: int
    events: List[Event] = field(repr=False)
    """The calls that begin and end, in the order in which that was seen."""
    order: List[Tuple[int, int]]
    """The calls that took effect, in order, each as its process and its number there: a legal order."""
    schedule: str = field(repr=False)
    """Who stepped: given as a schedule, it makes the same run again."""
    values: Dict[str, Value]
    """The variables of the module at the end: of an array a list, of a record of the language a dict."""
    steps: Dict[Tuple[int, int], int] = field(repr=False)
    """Of each call that ended how many steps its process took for it."""

    def __str__(self) -> str:
        return self.text

    @property
    def replies(self) -> Dict[Tuple[int, int], str]:
        """Of each call that ended its reply, as `done 2` or `trap 4`."""
        return {(it.process, it.call): it.said for it in self.events if it.kind == "E"}


def _read(value: str) -> Value:
    """A value as it is written, as `[1,2]` or `{key=7,is=TRUE}`."""
    def word(found: "re.Match[str]") -> str:
        name, is_field = found.groups()
        return f'"{name}":' if is_field else {"TRUE": "true", "FALSE": "false"}.get(name, name)

    return json.loads(re.sub(r"(\w+)(=?)", word, value))


def _call(word: str) -> Tuple[int, int]:
    process, number = word.split(".")
    return int(process), int(number)


def _record(text: str, beside: str) -> Record:
    lines = [line.partition(" ") for line in text.splitlines()]
    said = {kind: rest for kind, _, rest in lines}
    events = [Event(kind, *_call(rest.split()[0]), rest.partition(" ")[2]) for kind, _, rest in lines if kind in ("B", "E")]
    values = {name: _read(value) for name, value in (rest.split(" ", 1) for kind, _, rest in lines if kind == "V")}
    steps = {_call(it.split()[-2]): int(it.split()[-1]) for it in beside.splitlines()}
    order = [_call(it) for it in said["O"].split()]
    return Record(text, int(said["n"]), int(said["b"]), events, order, said.get("S", ""), values, steps)


def run(
    module: Text,
    script: Text,
    schedule: Optional[Text] = None,
    *,
    processes: int,
    seed: Optional[int] = None,
    length: Optional[int] = None,
    finish: bool = False,
    turns: Optional[int] = None,
    start: Union[Record, Text, None] = None,
) -> Record:
    """The record of a run by a schedule, or by one that a seed makes. With `finish` it goes on until each call has ended."""
    if (schedule is None) == (seed is None):
        raise TypeError("a run takes a schedule or a seed")
    files = {"module": module, "script": script}
    words: List[Text] = ["run", "module", "script", "-n", str(processes), "--steps"]
    for name, text in (("schedule", schedule), ("start", start)):
        if text is not None:
            files[name] = text
            words += [name] if name == "schedule" else ["--from", name]
    words += [*_option("--seed", seed), *_option("--length", length), *_option("-b", turns), *(["--finish"] if finish else [])]
    given = _printed(words, files)
    return _record(given.out.decode(), given.err.decode())


@dataclass(frozen=True)
class Process:
    """Where a process stands, and what it uses there."""

    label: str
    begun: int
    """How many calls of its script have begun."""
    calls: int
    """How many there are."""
    linked: bool
    """Whether nobody has stored since it linked the root."""
    uses: Dict[str, Union[int, List[int]]]
    """Of `round`, `r`, `acc`, `i`, `j` and `status` the numbers, and of `list`, `save` and `replies` the words, that are used at the label."""
    announced: List[int]
    """The words of its announcement."""
    toggle: int
    """The toggle of its announcement."""
    block: int
    """The number of its own block."""


@dataclass(frozen=True)
class State:
    """Where the machine stands behind a run."""

    text: str
    """The state as it is printed."""
    processes: List[Process]
    root: int
    """The number of the root's block."""
    blocks: Dict[int, List[List[int]]] = field(repr=False)
    """Each block by its number: the words of the variables, and then for each process status, values and toggle."""

    def __str__(self) -> str:
        return self.text


def _used(words: List[str]) -> Dict[str, Union[int, List[int]]]:
    """Names, each with the numbers behind it."""
    found: Dict[str, List[int]] = {}
    for word in words:
        if word.isalpha():
            found[word] = numbers = []
        else:
            numbers.append(int(word))
    return {name: it if name in ("list", "save", "replies") else it[0] for name, it in found.items()}


def _state(text: str) -> State:
    lines = [line.split() for line in text.splitlines()]
    of_kind = lambda kind: [words[1:] for words in lines if words[0] == kind]
    parts = lambda words: [[int(it) for it in part.split()] for part in " ".join(words).split("|")]
    owned = [parts(words) for words in of_kind("B")]
    (root,), *root_words = parts(of_kind("R")[0])
    processes = []
    for (_, label, calls, *rest), told, ((_, block), *_) in zip(of_kind("P"), of_kind("A"), owned):
        (_, *announced), (toggle,) = parts(told)
        begun, _, all_calls = calls.partition("/")
        uses = _used([it for it in rest if it != "linked"])
        processes.append(Process(label, int(begun), int(all_calls), "linked" in rest, uses, announced, toggle, block))
    return State(text, processes, root, {root: root_words, **{block: words for (_, block), *words in owned}})


def state(
    module: Text,
    script: Text,
    schedule: Text,
    *,
    processes: int,
    turns: Optional[int] = None,
    start: Union[Record, Text, None] = None,
) -> State:
    """Where the machine stands behind the run that `run` makes."""
    files = {"module": module, "script": script, "schedule": schedule, **({} if start is None else {"start": start})}
    words = ["state", "module", "script", "schedule", "-n", str(processes), *_option("-b", turns), *([] if start is None else ["--from", "start"])]
    return _state(_printed(words, files).out.decode())


def verify(module: Text, record: Union[Record, Text]) -> None:
    """Raises the fault of a record whose order is no legal order of its calls."""
    _printed(["verify", "module", "record"], {"module": module, "record": record})


class Trap(Exception):
    """A call on an `Object` trapped, and changed nothing: `number` is 1 to 5, and 5 where it had no turn left."""

    def __init__(self, number: int) -> None:
        super().__init__(f"trap {number}")
        self.number = number


class Object:
    """A module as a living object: its procedures are called one at a time, by any number of threads, and it keeps its variables.

        counter = obl0.Object(open("examples/counter.mod").read(), n=2)
        counter.call(0, "Inc")             # ()
        counter.call(1, "Get")             # (1,)
        counter.state()                    # {"x": 1}
        obl0.Object(module, n=2, from_=counter.record())

    Each call is answered as `seq` answers it, from the variables as they stand: its text, its budget and they go through the library, and
    nothing else of the calls before it. So a call costs a compilation of the module: of examples/counter.mod 0.13 ms of one processor. The
    object keeps its calls for `record`, some 100 bytes each.
    """

    def __init__(self, module: Text, *, n: int, budget: Optional[int] = None, from_: Union[Record, Text, None] = None) -> None:
        """An object that n processes share, 1 to 16, each call with a budget of turns. It begins by the module's body, or with the values
        of a record, as `record` gives it. Raises the fault of the module or of the record."""
        self._module, self._n, self._budget, self._lock = _bytes(module), n, budget, threading.Lock()
        begun = run(module, "", "", processes=n, turns=budget, start=from_).text.splitlines()
        self._values = dict(line.split(" ", 2)[1:] for line in begun if line.startswith("V "))
        self._head = [line for line in begun if line.startswith(("obl0", "n ", "b ", "I "))]
        self._events: List[str] = []
        self._order: List[str] = []
        self._calls = [0] * n

    def call(self, process: int, name: str, *arguments: Union[int, bool]) -> Tuple[Value, ...]:
        """Calls an export with arguments for its value parameters, and gives the values of its VAR parameters. Raises `Trap`, or as `Fault`
        L2 where there is no such export, L3 where the arguments don't fit, and L4 where there is no such process."""
        words = [name, *map(_value, arguments)]
        if not re.fullmatch(r"\w+", name, re.ASCII):
            raise Fault("L1 line 1", 1)
        if process not in range(self._n):
            raise Fault("L4 line 1", 1)
        with self._lock:
            start = "".join(["obl0 record 2\n", *(f"V {it} {value}\n" for it, value in self._values.items())])
            asked = ["seq", "module", "script", "--state", "--from", "start", *_option("-b", self._budget)]
            files = {"module": self._module, "script": " ".join([str(process), *words]), "start": start}
            reply, *changed = _printed(asked, files).out.decode().splitlines()
            said = reply.split(" ", 2)[2]
            self._values.update(line.split(" ", 2)[1:] for line in changed)
            self._calls[process] += 1
            call = f"{process}.{self._calls[process]}"
            self._events += [" ".join(["B", call, *words]), f"E {call} {said}"]
            self._order.append(call)
        kind, *values = said.split(" ")
        if kind == "trap":
            raise Trap(int(values[0]))
        return tuple(map(_read, values))

    def state(self) -> Dict[str, Value]:
        """The variables of the module as they are now."""
        with self._lock:
            return {name: _read(value) for name, value in self._values.items()}

    def record(self) -> Record:
        """The record of all calls so far, which `verify` says is right, `draw` draws, and another object goes on from."""
        with self._lock:
            values = [f"V {name} {value}" for name, value in self._values.items()]
            return _record("\n".join([*self._head, *self._events, " ".join(["O", *self._order]), *values, ""]), "")


class History:
    """What is seen of an object, by any number of threads at once: tell it of each call when it begins and when it ends.

        history = obl0.History()
        call = history.begin(0, "Put", 7)
        history.end(call, queue.put(7))

    or let `call` do both, in threads that `drive` starts.
    """

    def __init__(self) -> None:
        self._lines: List[str] = []
        self._calls: Dict[int, int] = {}
        self._lock = threading.Lock()

    def begin(self, process: int, procedure: str, *arguments: Union[int, bool]) -> str:
        """A call begins: of a process, 0 to 65535, which begins no other before this one has ended."""
        with self._lock:
            self._calls[process] = self._calls.get(process, 0) + 1
            call = f"{process}.{self._calls[process]}"
            self._lines.append(" ".join(["B", call, procedure, *map(_value, arguments)]))
        return call

    def end(self, call: str, *values: Union[int, bool]) -> None:
        """The call has ended with these values for its VAR parameters."""
        with self._lock:
            self._lines.append(" ".join(["E", call, "done", *map(_value, values)]))

    def call(self, process: int, procedure: str, *arguments: Union[int, bool], by: Callable[[], Any]) -> Any:
        """Makes a call, and tells when it begins and ends. What `by` returns is what it ended with: None, a value, or a tuple of some."""
        call = self.begin(process, procedure, *arguments)
        said = by()
        self.end(call, *(() if said is None else said if isinstance(said, tuple) else (said,)))
        return said

    def drive(self, count: int, work: Callable[[int], Any]) -> None:
        """Runs `work(process)` in threads for the processes 0 to `count` - 1, which begin together, and waits. What one raises is raised."""
        gate, raised = threading.Barrier(count), []

        def alone(process: int) -> None:
            gate.wait()
            try:
                work(process)
            except BaseException as told:
                raised.append(told)

        threads = [threading.Thread(target=alone, args=(it,)) for it in range(count)]
        for it in threads:
            it.start()
        for it in threads:
            it.join()
        if raised:
            raise raised[0]

    def __str__(self) -> str:
        with self._lock:
            return "".join(f"{line}\n" for line in self._lines)


def _value(value: Union[int, bool]) -> str:
    return str(value).upper() if isinstance(value, bool) else str(operator.index(value))


def order(
    module: Text,
    history: Union[History, Text],
    *,
    turns: Optional[int] = None,
    most: Optional[int] = None,
    by: Optional[int] = None,
    record: bool = False,
) -> str:
    """A legal order of the calls of a history, as `O 0.1 1.1`; raises X1 where there is none, X2 where the search was given up.

    With `by` there is a line for each value of that argument of the calls; with `record` it is the history as a record.
    """
    words = ["order", "module", "history", *_option("-b", turns), *_option("--most", most), *_option("--by", by)]
    return _printed([*words, *(["--record"] if record else [])], {"module": module, "history": history}).out.decode().rstrip("\n")


def draw(
    module: Text,
    seen: Union[Record, History, Text],
    *,
    calls: Optional[Tuple[int, int]] = None,
    turns: Optional[int] = None,
    most: Optional[int] = None,
) -> str:
    """The picture of a record or of a history, in SVG, or of some of its calls, from 1.

    `turns` and `most` are those of the search for the order of a history, as of `order`.
    """
    words = ["draw", "module", "seen", *_option("-b", turns), *_option("--most", most)]
    words += [] if calls is None else ["--calls", f"{calls[0]}-{calls[1]}"]
    return _printed(words, {"module": module, "seen": seen}).out.decode()


def explain(module: Text, history: Union[History, Text, None] = None, *, script: Optional[Text] = None, record: Union[Record, Text, None] = None) -> str:
    """What is wrong with a module, a script, a record or a history, shown to people; `ok` where nothing is."""
    files = {"module": module}
    words: List[Text] = ["explain", "module"]
    if script is not None:
        files["script"], words = script, [*words, "script"]
    if record is not None:
        files["record"], words = record, [*words, "--record", "record"]
    if history is not None:
        files["history"], words = history, [*words, "--history", "history"]
    given = answer(words, files)
    if given.status > 1:
        raise Fault(given.err.decode().rstrip("\n"), given.status)
    return (given.out + given.err).decode().rstrip("\n")


def page(fault: str) -> str:
    """What the page of faults says of a fault, by its name, as `H4` or `trap 5`."""
    return _printed(["explain", fault], {}).out.decode()


def bound(module: Text, *, processes: int, turns: Optional[int] = None) -> Dict[str, int]:
    """How many own steps a call takes at most (`steps`), and the numbers behind it, by name."""
    said = _printed(["bound", "module", "-n", str(processes), *_option("-b", turns)], {"module": module}).out.decode()
    return {name: int(number) for name, _, number in (line.rpartition(" ") for line in said.splitlines())}
