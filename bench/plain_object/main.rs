//! What `obl0 run`, `obl0 verify` and `obl0 seq` do for examples/counter.mod, in plain Rust, with nothing proved of it. `run SCRIPT
//! SCHEDULE -n N` reads calls and items, plays the machine of docs/MACHINE.md over the code of the module, an instruction a step, and
//! prints the record, byte for byte that of docs/FORMATS.md. `verify RECORD` reads a record and checks its order. `seq SCRIPT` reads calls,
//! makes them one after the other and prints their replies. A fault is told by its line on standard error, with status 1. Of the module
//! there are the three tables below, and nothing else knows which one it is: bench/table writes others in their place.

use std::env;
use std::fs;
use std::hint::black_box;
use std::io::{self, Write};
use std::process::ExitCode;

/// The code, as `obl0 list` prints it.
const LISTING: &str = "\
PROCEDURE Inc
0 FRAME 0
1 GLOB 0
2 GLOB 0
3 GET
4 LIT 1
5 ADD
6 PUT
7 RET
PROCEDURE Get
8 FRAME 0
9 LOC 0
10 GET
11 GLOB 0
12 GET
13 PUT
14 RET
";

/// The exports, in the order of the text.
const EXPORTS: &[Export] = &[
    Export { name: "Inc", formals: &[] },
    Export { name: "Get", formals: &[Formal { is_var: true, kind: Kind::Integer }] },
];

/// The variables, which are scalars. All begin as 0.
const VARIABLES: &[(&str, Kind)] = &[("x", Kind::Integer)];

/// The words of the stack on which a body works.
const STACK_WORDS: usize = 8 + 64 * (1 + 3);
/// The turns that a call of a run has.
const BUDGET: u32 = 100_000;
/// The most turns that a record may give a call.
const MOST_TURNS: u64 = 1_000_000;
/// The most steps of an item.
const MOST_STEPS: u64 = 1_000_000;
const MOST_PROCESSES: usize = 16;
/// The most procedures that have called another one.
const MOST_CALLERS: usize = 63;

/// The line of a fault.
type Fault = String;

#[derive(Clone, Copy, PartialEq, Eq)]
#[allow(dead_code)]
enum Kind {
    Integer,
    Boolean,
}

struct Formal {
    is_var: bool,
    kind: Kind,
}

struct Export {
    name: &'static str,
    formals: &'static [Formal],
}

impl Export {
    /// The kinds of the VAR parameters, or of the others.
    fn kinds(&self, is_var: bool) -> impl Iterator<Item = Kind> {
        self.formals.iter().filter(move |formal| formal.is_var == is_var).map(|formal| formal.kind)
    }

    fn count(&self, is_var: bool) -> usize {
        self.kinds(is_var).count()
    }
}

// ---- what is kept of calls ----

/// Up to eight values, a BOOLEAN as 0 or 1: three of them in place, and more in memory of their own.
#[derive(Clone, PartialEq)]
enum Values {
    Few(u8, [i32; 3]),
    Many(u8, Box<[i32; 8]>),
}

impl Values {
    fn new() -> Values {
        Values::Few(0, [0; 3])
    }

    fn push(&mut self, value: i32) {
        match self {
            Values::Few(count @ 3, few) => {
                let mut many = Box::new([0; 8]);
                many[..3].copy_from_slice(few);
                many[3] = value;
                *self = Values::Many(*count + 1, many);
            }
            Values::Few(count, few) => {
                few[usize::from(*count)] = value;
                *count += 1;
            }
            Values::Many(count, many) => {
                many[usize::from(*count)] = value;
                *count += 1;
            }
        }
    }

    fn as_slice(&self) -> &[i32] {
        match self {
            Values::Few(count, few) => &few[..usize::from(*count)],
            Values::Many(count, many) => &many[..usize::from(*count)],
        }
    }
}

#[derive(Clone, PartialEq)]
enum Reply {
    Done(Values),
    Trap(u8),
}

#[derive(Clone, Copy)]
struct CallId {
    process: u8,
    number: u64,
}

struct Call {
    procedure: u16,
    arguments: Values,
}

enum Event {
    Begin { process: u8, procedure: u16, number: u64, arguments: Values },
    /// So many calls took effect, which come next in the order.
    Applied(u8),
    End { process: u8, procedure: u16, number: u64, reply: Reply },
}

const _: () = assert!(size_of::<Event>() == 32);

struct Turns {
    process: u8,
    count: u64,
}

#[derive(Clone, Copy, Default)]
#[allow(dead_code)]
struct Spent {
    bodies: u64,
    inside: u64,
    outside: u64,
}

// ---- the stack machine ----

#[derive(Clone, Copy)]
enum Instr {
    Literal(i32),
    Global(u16),
    Local(u16),
    Field(u16),
    Index(u16, u16),
    Get,
    Put,
    Add,
    Subtract,
    Multiply,
    Divide,
    Modulo,
    Negate,
    Not,
    Equal,
    NotEqual,
    Less,
    LessOrEqual,
    Greater,
    GreaterOrEqual,
    Jump(u16),
    JumpIfFalse(u16),
    AndJump(u16),
    OrJump(u16),
    Call(u16, u16),
    Frame(u16),
    Return,
    Turn,
}

impl Instr {
    /// The instruction of a name and its operands, which are 0 where it has none.
    fn named(name: &str, [a, b]: [i32; 2]) -> Instr {
        let (word, other) = (a as u16, b as u16);
        match name {
            "LIT" => Instr::Literal(a),
            "GLOB" => Instr::Global(word),
            "LOC" => Instr::Local(word),
            "FLD" => Instr::Field(word),
            "IDX" => Instr::Index(word, other),
            "GET" => Instr::Get,
            "PUT" => Instr::Put,
            "ADD" => Instr::Add,
            "SUB" => Instr::Subtract,
            "MUL" => Instr::Multiply,
            "DIV" => Instr::Divide,
            "MOD" => Instr::Modulo,
            "NEG" => Instr::Negate,
            "NOT" => Instr::Not,
            "EQ" => Instr::Equal,
            "NE" => Instr::NotEqual,
            "LT" => Instr::Less,
            "LE" => Instr::LessOrEqual,
            "GT" => Instr::Greater,
            "GE" => Instr::GreaterOrEqual,
            "JMP" => Instr::Jump(word),
            "JF" => Instr::JumpIfFalse(word),
            "ANDJ" => Instr::AndJump(word),
            "ORJ" => Instr::OrJump(word),
            "CALL" => Instr::Call(word, other),
            "FRAME" => Instr::Frame(word),
            "RET" => Instr::Return,
            "TURN" => Instr::Turn,
            _ => panic!("{name} is no instruction"),
        }
    }
}

/// Instructions, and for each procedure the place of its first one.
struct Code {
    instructions: Vec<Instr>,
    entries: Vec<usize>,
}

impl Code {
    fn read(listing: &str) -> Code {
        let mut code = Code { instructions: Vec::new(), entries: Vec::new() };
        for line in listing.lines() {
            let words: Vec<&str> = line.split(' ').collect();
            if words[0] == "PROCEDURE" {
                code.entries.push(code.instructions.len());
            } else {
                let operand = |place: usize| words.get(place).map_or(0, |word| word.parse().expect("an operand"));
                code.instructions.push(Instr::named(words[1], [operand(2), operand(3)]));
            }
        }
        code
    }
}

enum BodyTurn {
    On,
    Returned,
    Trapped(u8),
}

/// The body of one call. Its memory is reserved once.
struct Body {
    pc: usize,
    fp: usize,
    stack: Vec<i64>,
    callers: Vec<(usize, usize)>,
    turns: u32,
}

impl Body {
    fn new() -> Body {
        let (stack, callers) = (Vec::with_capacity(STACK_WORDS), Vec::with_capacity(MOST_CALLERS));
        Body { pc: 0, fp: 0, stack, callers, turns: 0 }
    }

    /// Begins the call that the words are: the number of the procedure, and the value arguments.
    fn start(&mut self, code: &Code, words: &[i64], budget: u32) {
        let procedure = words[0] as usize;
        let export = &EXPORTS[procedure];
        self.pc = code.entries[procedure];
        self.fp = export.count(true);
        self.turns = budget;
        self.callers.clear();
        self.stack.clear();
        self.stack.resize(self.fp, 0);
        let (mut result, mut argument) = (VARIABLES.len(), 1);
        for formal in export.formals {
            if formal.is_var {
                self.stack.push(result as i64);
                result += 1;
            } else {
                self.stack.push(words[argument]);
                argument += 1;
            }
        }
    }

    /// Instructions, at most so many, up to the last one of the body; how many they are, and what came of the last one.
    fn run(&mut self, code: &Code, block: &mut [i64], most: u64) -> (u64, BodyTurn) {
        for count in 1..=most {
            match self.step(&code.instructions, block) {
                BodyTurn::On => {}
                turn => return (count, turn),
            }
        }
        (most, BodyTurn::On)
    }

    #[inline(always)]
    fn step(&mut self, code: &[Instr], block: &mut [i64]) -> BodyTurn {
        let instr = code[self.pc];
        self.pc += 1;
        match instr {
            Instr::Literal(value) => self.stack.push(i64::from(value)),
            Instr::Global(word) => self.stack.push(i64::from(word)),
            Instr::Local(word) => self.stack.push((block.len() + self.fp + usize::from(word)) as i64),
            Instr::Field(offset) => *self.top() += i64::from(offset),
            Instr::Index(length, words) => {
                let index = self.pop();
                if index < 0 || index >= i64::from(length) {
                    return BodyTurn::Trapped(2);
                }
                *self.top() += index * i64::from(words);
            }
            Instr::Get => {
                let place = self.pop() as usize;
                let word = if place < block.len() { block[place] } else { self.stack[place - block.len()] };
                self.stack.push(word);
            }
            Instr::Put => {
                let word = self.pop();
                let place = self.pop() as usize;
                if place < block.len() {
                    block[place] = word;
                } else {
                    self.stack[place - block.len()] = word;
                }
            }
            Instr::Add => return self.arithmetic(|x, y| x + y),
            Instr::Subtract => return self.arithmetic(|x, y| x - y),
            Instr::Multiply => return self.arithmetic(|x, y| x * y),
            Instr::Divide => return self.division(i64::div_euclid),
            Instr::Modulo => return self.division(i64::rem_euclid),
            Instr::Negate => {
                let x = -self.pop();
                return self.push_integer(x);
            }
            Instr::Not => {
                let x = self.top();
                *x = 1 - *x;
            }
            Instr::Equal => self.relation(|x, y| x == y),
            Instr::NotEqual => self.relation(|x, y| x != y),
            Instr::Less => self.relation(|x, y| x < y),
            Instr::LessOrEqual => self.relation(|x, y| x <= y),
            Instr::Greater => self.relation(|x, y| x > y),
            Instr::GreaterOrEqual => self.relation(|x, y| x >= y),
            Instr::Jump(target) => self.pc = usize::from(target),
            Instr::JumpIfFalse(target) => {
                if self.pop() == 0 {
                    self.pc = usize::from(target);
                }
            }
            Instr::AndJump(target) => self.jump_if_decided(0, target),
            Instr::OrJump(target) => self.jump_if_decided(1, target),
            Instr::Call(entry, parameters) => return self.call(entry, parameters),
            Instr::Frame(words) => {
                let height = self.stack.len() + usize::from(words);
                self.stack.resize(height, 0);
            }
            Instr::Return => {
                self.stack.truncate(self.fp);
                match self.callers.pop() {
                    Some((pc, fp)) => (self.pc, self.fp) = (pc, fp),
                    None => return BodyTurn::Returned,
                }
            }
            Instr::Turn => return self.take_turn(),
        }
        BodyTurn::On
    }

    #[inline(always)]
    fn pop(&mut self) -> i64 {
        self.stack.pop().expect("a word")
    }

    #[inline(always)]
    fn top(&mut self) -> &mut i64 {
        self.stack.last_mut().expect("a word")
    }

    fn push_integer(&mut self, exact: i64) -> BodyTurn {
        if i32::try_from(exact).is_err() {
            return BodyTurn::Trapped(1);
        }
        self.stack.push(exact);
        BodyTurn::On
    }

    /// Both words are INTEGERs, so no i64 overflows.
    #[inline(always)]
    fn arithmetic(&mut self, exact: impl Fn(i64, i64) -> i64) -> BodyTurn {
        let y = self.pop();
        let x = self.pop();
        self.push_integer(exact(x, y))
    }

    fn division(&mut self, exact: impl Fn(i64, i64) -> i64) -> BodyTurn {
        let y = self.pop();
        let x = self.pop();
        if y <= 0 {
            return BodyTurn::Trapped(3);
        }
        self.stack.push(exact(x, y));
        BodyTurn::On
    }

    #[inline(always)]
    fn relation(&mut self, holds: impl Fn(i64, i64) -> bool) {
        let y = self.pop();
        let x = self.pop();
        self.stack.push(i64::from(holds(x, y)));
    }

    fn jump_if_decided(&mut self, decides: i64, target: u16) {
        if *self.top() == decides {
            self.pc = usize::from(target);
        } else {
            self.pop();
        }
    }

    fn call(&mut self, entry: u16, parameters: u16) -> BodyTurn {
        if self.callers.len() == MOST_CALLERS {
            return BodyTurn::Trapped(4);
        }
        if self.turns == 0 {
            return BodyTurn::Trapped(5);
        }
        self.turns -= 1;
        self.callers.push((self.pc, self.fp));
        self.fp = self.stack.len() - usize::from(parameters);
        self.pc = usize::from(entry);
        BodyTurn::On
    }

    fn take_turn(&mut self) -> BodyTurn {
        if self.turns == 0 {
            return BodyTurn::Trapped(5);
        }
        self.turns -= 1;
        BodyTurn::On
    }
}

// ---- the machine ----

#[derive(Clone, Copy, PartialEq, Eq)]
enum Label {
    Next,
    Post,
    Flip,
    Try,
    Link,
    Load,
    Store,
    Check1,
    Mine,
    Seen,
    Fetch,
    Check2,
    Save,
    Enter,
    Body,
    Undo,
    Keep,
    Commit,
    Read,
    Take,
    Give,
}

#[derive(Clone, Copy)]
struct Sizes {
    processes: usize,
    variables: usize,
    replies: usize,
    arguments: usize,
    /// The words of a process's part of a block.
    part: usize,
    /// The words of a block.
    block: usize,
}

impl Sizes {
    fn of(n: usize) -> Sizes {
        let most = |is_var| EXPORTS.iter().map(|export| export.count(is_var)).max().unwrap_or(0);
        let (variables, replies, arguments) = (VARIABLES.len(), most(true), most(false) + 1);
        let part = replies + 2;
        Sizes { processes: n, variables, replies, arguments, part, block: variables + n * part }
    }

    /// Where a process's part begins in a block.
    fn part_of(self, q: usize) -> usize {
        self.variables + q * self.part
    }

    /// Where a process's toggle stands in a block.
    fn toggle_of(self, q: usize) -> usize {
        self.part_of(q) + self.replies + 1
    }

    /// Where a process's announcement begins, behind all blocks; its toggle stands behind its words.
    fn announcement_of(self, q: usize) -> usize {
        (self.processes + 1) * self.block + q * (self.arguments + 1)
    }
}

struct Process {
    label: Label,
    round: u8,
    calls: Vec<Call>,
    begun: usize,
    /// The number of the own block.
    own: usize,
    /// Where the block begins that is read.
    r: usize,
    acc: i64,
    i: usize,
    j: usize,
    status: i64,
    list: Vec<i64>,
    replies: Vec<i64>,
    save: Vec<i64>,
    body: Body,
    spent: Spent,
    flip_mark: usize,
}

/// The words of all blocks lie in one list, and those of all announcements behind them. Of the links there is a bit for each process.
struct Machine {
    code: Code,
    sizes: Sizes,
    words: Vec<i64>,
    root: usize,
    linked: u16,
    processes: Vec<Process>,
    history: Vec<Event>,
    order: Vec<CallId>,
    schedule: Vec<Turns>,
    root_marks: Vec<usize>,
}

impl Machine {
    fn new(n: usize) -> Machine {
        let sizes = Sizes::of(n);
        let idle = |p: usize| Process {
            label: Label::Next,
            round: 0,
            calls: Vec::new(),
            begun: 0,
            own: p + 1,
            r: 0,
            acc: 0,
            i: 0,
            j: 0,
            status: 0,
            list: vec![0; sizes.arguments],
            replies: vec![0; sizes.replies + 1],
            save: vec![0; sizes.variables],
            body: Body::new(),
            spent: Spent::default(),
            flip_mark: 0,
        };
        Machine {
            code: Code::read(LISTING),
            sizes,
            words: vec![0; sizes.announcement_of(n)],
            root: 0,
            linked: 0,
            processes: (0..n).map(idle).collect(),
            history: Vec::new(),
            order: Vec::new(),
            schedule: Vec::new(),
            root_marks: vec![0; n + 1],
        }
    }

    /// Plays an item; false where it stands for more steps than an item may take.
    fn play(&mut self, item: Item) -> bool {
        let (p, most, goal) = match item {
            Item::Steps { count, .. } if u64::from(count) > MOST_STEPS => return false,
            Item::Steps { process, count } => (process, u64::from(count), None),
            Item::Until { process, label } => (process, MOST_STEPS, Some(label)),
            Item::ToAnswer { process } => (process, MOST_STEPS, None),
        };
        let (taken, is_played) = self.take(usize::from(p), most, goal, matches!(item, Item::ToAnswer { .. }));
        self.count_turns(p, taken);
        is_played || matches!(item, Item::Steps { .. })
    }

    /// Steps of a process, at most so many, until it stands at the goal, or where it is to answer until it does, or in both cases
    /// until it is halted; how many they are, and whether it came so far.
    fn take(&mut self, p: usize, most: u64, goal: Option<Label>, to_answer: bool) -> (u64, bool) {
        let mut taken = 0;
        loop {
            taken += self.take_rows(p, most - taken, goal);
            let q = &self.processes[p];
            let label = q.label;
            if goal == Some(label) {
                return (taken, true);
            }
            if label == Label::Next && q.begun == q.calls.len() {
                let is_counted = goal.is_none() && !to_answer;
                return (if is_counted { most } else { taken }, true);
            }
            if taken == most {
                return (taken, false);
            }
            match label {
                Label::Next => self.begin(p),
                Label::Commit => self.commit(p),
                _ => self.give(p),
            }
            taken += 1;
            if to_answer && label == Label::Give {
                return (taken, true);
            }
        }
    }

    /// So many more turns of a process.
    fn count_turns(&mut self, process: u8, count: u64) {
        match self.schedule.last_mut() {
            _ if count == 0 => {}
            Some(turns) if turns.process == process => turns.count += count,
            _ => self.schedule.push(Turns { process, count }),
        }
    }

    /// NEXT, where there is a call left.
    fn begin(&mut self, p: usize) {
        let q = &mut self.processes[p];
        let call = &q.calls[q.begun];
        q.begun += 1;
        q.list[0] = i64::from(call.procedure);
        q.list[1..].fill(0);
        for (word, value) in q.list[1..].iter_mut().zip(call.arguments.as_slice()) {
            *word = i64::from(*value);
        }
        q.i = 0;
        q.label = Label::Post;
        q.spent = Spent { outside: 1, ..Spent::default() };
        self.history.push(Event::Begin {
            process: p as u8,
            procedure: call.procedure,
            number: q.begun as u64,
            arguments: call.arguments.clone(),
        });
    }

    /// COMMIT. The calls are applied of the processes whose toggles differ between the root and the own block.
    fn commit(&mut self, p: usize) {
        self.processes[p].spent.outside += 1;
        if self.linked & (1 << p) == 0 {
            self.processes[p].label = Label::Try;
            return;
        }
        let own = self.processes[p].own;
        let (old, new) = (self.root * self.sizes.block, own * self.sizes.block);
        let before = self.order.len();
        for (other, q) in self.processes.iter().enumerate() {
            let toggle = self.sizes.toggle_of(other);
            if self.words[old + toggle] != self.words[new + toggle] {
                self.order.push(CallId { process: other as u8, number: q.begun as u64 });
            }
        }
        self.history.push(Event::Applied((self.order.len() - before) as u8));
        self.root_marks[own] = self.history.len();
        self.processes[p].own = self.root;
        self.processes[p].label = Label::Read;
        self.root = own;
        self.linked = 0;
    }

    /// GIVE.
    fn give(&mut self, p: usize) {
        let q = &mut self.processes[p];
        let procedure = q.calls[q.begun - 1].procedure;
        let reply = match q.replies[0] {
            0 => {
                let mut values = Values::new();
                for word in &q.replies[1..=EXPORTS[usize::from(procedure)].count(true)] {
                    values.push(*word as i32);
                }
                Reply::Done(values)
            }
            status => Reply::Trap(status as u8),
        };
        q.label = Label::Next;
        q.spent.outside += 1;
        self.history.push(Event::End { process: p as u8, procedure, number: q.begun as u64, reply });
    }

    /// Steps of a process, at most so many, that show nothing, up to the goal; how many they are. Those in a body are spent inside.
    fn take_rows(&mut self, p: usize, most: u64, goal: Option<Label>) -> u64 {
        let Machine { code, sizes, words, root, linked, processes, history, .. } = self;
        let Sizes { processes: n, variables, replies, arguments, part, block } = *sizes;
        let q = &mut processes[p];
        let own = q.own * block;
        let link = 1 << p;
        let announced = sizes.announcement_of(p);
        let (mut taken, mut inside) = (0, 0);
        while taken < most && goal != Some(q.label) {
            let i = q.i;
            match q.label {
                Label::Next | Label::Commit | Label::Give => break,
                Label::Post => {
                    words[announced + i] = q.list[i];
                    q.i = i + 1;
                    if q.i == arguments {
                        q.label = Label::Flip;
                    }
                }
                Label::Flip => {
                    words[announced + arguments] ^= 1;
                    q.flip_mark = history.len();
                    q.round = 0;
                    q.label = Label::Try;
                }
                Label::Try => {
                    if q.round == 2 {
                        q.label = Label::Read;
                    } else {
                        q.round += 1;
                        q.label = Label::Link;
                    }
                }
                Label::Link => {
                    *linked |= link;
                    q.r = *root * block;
                    q.i = 0;
                    q.label = Label::Load;
                }
                Label::Load => {
                    q.acc = words[q.r + i];
                    q.label = Label::Store;
                }
                Label::Store => {
                    words[own + i] = q.acc;
                    q.i = i + 1;
                    q.label = if q.i == block { Label::Check1 } else { Label::Load };
                }
                Label::Check1 => q.label = if *linked & link == 0 { Label::Try } else { Label::Mine },
                Label::Mine => {
                    if words[own + sizes.toggle_of(p)] == words[announced + arguments] {
                        q.label = Label::Read;
                    } else {
                        q.j = 0;
                        q.label = Label::Seen;
                    }
                }
                Label::Seen => {
                    if q.j == n {
                        q.label = Label::Commit;
                    } else if words[own + sizes.toggle_of(q.j)] == words[sizes.announcement_of(q.j) + arguments] {
                        q.j += 1;
                    } else {
                        q.i = 0;
                        q.label = Label::Fetch;
                    }
                }
                Label::Fetch => {
                    q.list[i] = words[sizes.announcement_of(q.j) + i];
                    q.i = i + 1;
                    if q.i == arguments {
                        q.label = Label::Check2;
                    }
                }
                Label::Check2 => {
                    q.i = 0;
                    q.label = match (*linked & link, variables) {
                        (0, _) => Label::Try,
                        (_, 0) => Label::Enter,
                        _ => Label::Save,
                    };
                }
                Label::Save => {
                    q.save[i] = words[own + i];
                    q.i = i + 1;
                    if q.i == variables {
                        q.label = Label::Enter;
                    }
                }
                Label::Enter => {
                    q.body.start(code, &q.list, BUDGET);
                    q.spent.bodies += 1;
                    q.label = Label::Body;
                }
                Label::Body => {
                    let (count, turn) = q.body.run(code, &mut words[own..own + variables], most - taken);
                    taken += count;
                    inside += count;
                    match turn {
                        BodyTurn::On => {}
                        BodyTurn::Returned => {
                            q.i = 0;
                            q.status = 0;
                            q.label = Label::Keep;
                        }
                        BodyTurn::Trapped(number) => {
                            q.i = 0;
                            q.status = i64::from(number);
                            q.label = if variables == 0 { Label::Keep } else { Label::Undo };
                        }
                    }
                    continue;
                }
                Label::Undo => {
                    words[own + i] = q.save[i];
                    q.i = i + 1;
                    if q.i == variables {
                        q.i = 0;
                        q.label = Label::Keep;
                    }
                }
                Label::Keep => {
                    let place = own + sizes.part_of(q.j) + i;
                    words[place] = if i == 0 {
                        q.status
                    } else if i == replies + 1 {
                        words[place] ^ 1
                    } else if q.status == 0 {
                        q.body.stack.get(i - 1).copied().unwrap_or(0)
                    } else {
                        0
                    };
                    q.i = i + 1;
                    if q.i == part {
                        q.i = 0;
                        q.j += 1;
                        q.label = Label::Seen;
                    }
                }
                Label::Read => {
                    q.r = *root * block;
                    q.i = 0;
                    q.label = Label::Take;
                }
                Label::Take => {
                    q.replies[i] = words[q.r + sizes.part_of(p) + i];
                    q.i = i + 1;
                    if q.i == replies + 1 {
                        q.label = Label::Give;
                    }
                }
            }
            taken += 1;
        }
        q.spent.inside += inside;
        q.spent.outside += taken - inside;
        taken
    }
}

// ---- texts ----

/// A text that is read word by word, and line by line.
struct Reader<'a> {
    text: &'a [u8],
    at: usize,
    line: usize,
}

impl<'a> Reader<'a> {
    fn new(text: &'a [u8]) -> Reader<'a> {
        Reader { text, at: 0, line: 1 }
    }

    /// The next word of the line.
    fn word(&mut self) -> Option<&'a [u8]> {
        let rest = &self.text[self.at..];
        let blanks = rest.iter().take_while(|byte| matches!(byte, b' ' | b'\t' | b'\r')).count();
        let rest = &rest[blanks..];
        let length = rest.iter().take_while(|byte| !matches!(byte, b' ' | b'\t' | b'\r' | b'\n')).count();
        self.at += blanks + length;
        (length > 0).then_some(&rest[..length])
    }

    /// Goes on to the next line, where there is one.
    fn next_line(&mut self) -> bool {
        match self.text[self.at..].iter().position(|byte| *byte == b'\n') {
            Some(rest) => {
                self.at += rest + 1;
                self.line += 1;
                true
            }
            None => false,
        }
    }
}

/// The number that digits spell, where it is below 2^64.
fn numeral(word: &[u8]) -> Option<u64> {
    if word.is_empty() {
        return None;
    }
    word.iter().try_fold(0u64, |value, byte| {
        let digit = byte.wrapping_sub(b'0');
        if digit > 9 {
            return None;
        }
        value.checked_mul(10)?.checked_add(u64::from(digit))
    })
}

/// The number that so many digits spell at most.
fn short_numeral(word: &[u8], most: usize) -> Option<u64> {
    if word.len() > most { None } else { numeral(word) }
}

/// The value that a word says.
fn value(kind: Kind, word: &[u8]) -> Option<i32> {
    match (kind, word) {
        (Kind::Boolean, b"TRUE") => Some(1),
        (Kind::Boolean, b"FALSE") => Some(0),
        (Kind::Boolean, _) => None,
        (Kind::Integer, [b'-', digits @ ..]) => i32::try_from(-(short_numeral(digits, 10)? as i64)).ok(),
        (Kind::Integer, digits) => i32::try_from(short_numeral(digits, 10)?).ok(),
    }
}

/// The values that the rest of a line says of an export's VAR parameters, or of the others.
fn values(reader: &mut Reader, export: &Export, is_var: bool) -> Option<Values> {
    let mut values = Values::new();
    for kind in export.kinds(is_var) {
        values.push(value(kind, reader.word()?)?);
    }
    reader.word().is_none().then_some(values)
}

fn export_named(name: &[u8]) -> Option<usize> {
    EXPORTS.iter().position(|export| export.name.as_bytes() == name)
}

fn is_name(word: &[u8]) -> bool {
    word.first().is_some_and(u8::is_ascii_alphabetic) && word.iter().all(u8::is_ascii_alphanumeric)
}

/// The calls of a script, each to its process.
fn read_script(text: &[u8], machine: &mut Machine) -> Result<(), Fault> {
    let mut reader = Reader::new(text);
    loop {
        if let Some(first) = reader.word()
            && first[0] != b'#'
        {
            let (process, call) = script_call(&mut reader, first, machine.sizes.processes)
                .map_err(|fault| format!("{fault} line {}", reader.line))?;
            machine.processes[process].calls.push(call);
        }
        if !reader.next_line() {
            return Ok(());
        }
    }
}

/// What the line of a call says.
fn script_call(reader: &mut Reader, first: &[u8], processes: usize) -> Result<(usize, Call), &'static str> {
    let process = short_numeral(first, 9).ok_or("L1")? as usize;
    let name = reader.word().filter(|word| is_name(word)).ok_or("L1")?;
    if process >= processes {
        return Err("L4");
    }
    let procedure = export_named(name).ok_or("L2")?;
    let arguments = values(reader, &EXPORTS[procedure], false).ok_or("L3")?;
    Ok((process, Call { procedure: procedure as u16, arguments }))
}

#[derive(Clone, Copy)]
enum Item {
    Steps { process: u8, count: u32 },
    Until { process: u8, label: Label },
    ToAnswer { process: u8 },
}

fn read_schedule(text: &[u8], processes: usize) -> Result<Vec<Item>, Fault> {
    let mut reader = Reader::new(text);
    let mut items = Vec::new();
    loop {
        while let Some(word) = reader.word() {
            let item = item(word, processes).map_err(|fault| format!("{fault} item {}", items.len() + 1))?;
            items.push(item);
        }
        if !reader.next_line() {
            return Ok(items);
        }
    }
}

fn item(word: &[u8], processes: usize) -> Result<Item, &'static str> {
    let digits = word.iter().take_while(|byte| byte.is_ascii_digit()).count();
    let number = short_numeral(&word[..digits], 9).ok_or("Q1")?;
    let process = number as u8;
    let item = match &word[digits..] {
        b"!" => Item::ToAnswer { process },
        [b'*', count @ ..] => Item::Steps { process, count: short_numeral(count, 9).ok_or("Q1")? as u32 },
        [b':', name @ ..] => Item::Until { process, label: label_named(name).ok_or("Q1")? },
        _ => return Err("Q1"),
    };
    if number >= processes as u64 { Err("Q2") } else { Ok(item) }
}

fn label_named(name: &[u8]) -> Option<Label> {
    Some(match name {
        b"NEXT" => Label::Next,
        b"POST" => Label::Post,
        b"FLIP" => Label::Flip,
        b"TRY" => Label::Try,
        b"LINK" => Label::Link,
        b"LOAD" => Label::Load,
        b"STORE" => Label::Store,
        b"CHECK1" => Label::Check1,
        b"MINE" => Label::Mine,
        b"SEEN" => Label::Seen,
        b"FETCH" => Label::Fetch,
        b"CHECK2" => Label::Check2,
        b"SAVE" => Label::Save,
        b"ENTER" => Label::Enter,
        b"BODY" => Label::Body,
        b"UNDO" => Label::Undo,
        b"KEEP" => Label::Keep,
        b"COMMIT" => Label::Commit,
        b"READ" => Label::Read,
        b"TAKE" => Label::Take,
        b"GIVE" => Label::Give,
        _ => return None,
    })
}

/// The two digits of each number below 100.
const PAIRS: [[u8; 2]; 100] = {
    let mut pairs = [[0; 2]; 100];
    let mut number = 0;
    while number < 100 {
        pairs[number] = [b'0' + number as u8 / 10, b'0' + number as u8 % 10];
        number += 1;
    }
    pairs
};

fn push_number(text: &mut Vec<u8>, number: u64) {
    let (mut digits, mut from, mut rest) = ([0; 20], 20, number);
    while rest >= 10 {
        from -= 2;
        digits[from..from + 2].copy_from_slice(&PAIRS[(rest % 100) as usize]);
        rest /= 100;
    }
    if rest > 0 || from == 20 {
        from -= 1;
        digits[from] = b'0' + rest as u8;
    }
    text.extend_from_slice(&digits[from..]);
}

fn push_id(text: &mut Vec<u8>, process: u8, number: u64) {
    push_number(text, u64::from(process));
    text.push(b'.');
    push_number(text, number);
}

fn push_ids(text: &mut Vec<u8>, ids: &[CallId]) {
    for id in ids {
        text.push(b' ');
        push_id(text, id.process, id.number);
    }
}

fn push_value(text: &mut Vec<u8>, kind: Kind, value: i32) {
    match (kind, value) {
        (Kind::Boolean, 0) => text.extend_from_slice(b" FALSE"),
        (Kind::Boolean, _) => text.extend_from_slice(b" TRUE"),
        (Kind::Integer, _) => {
            text.extend_from_slice(if value < 0 { b" -" } else { b" " });
            push_number(text, u64::from(value.unsigned_abs()));
        }
    }
}

fn push_values(text: &mut Vec<u8>, procedure: u16, is_var: bool, values: &Values) {
    let kinds = EXPORTS[usize::from(procedure)].kinds(is_var);
    for (kind, value) in kinds.zip(values.as_slice()) {
        push_value(text, kind, *value);
    }
}

/// Appends the line of an event; the ids that took effect are taken from those behind.
fn push_event(text: &mut Vec<u8>, event: &Event, order: &mut &[CallId]) {
    match event {
        Event::Begin { process, procedure, number, arguments } => {
            text.extend_from_slice(b"B ");
            push_id(text, *process, *number);
            text.push(b' ');
            text.extend_from_slice(EXPORTS[usize::from(*procedure)].name.as_bytes());
            push_values(text, *procedure, false, arguments);
        }
        Event::Applied(count) => {
            let (ids, behind) = order.split_at(usize::from(*count));
            *order = behind;
            text.push(b'A');
            push_ids(text, ids);
        }
        Event::End { process, procedure, number, reply } => {
            text.extend_from_slice(b"E ");
            push_id(text, *process, *number);
            match reply {
                Reply::Done(values) => {
                    text.extend_from_slice(b" done");
                    push_values(text, *procedure, true, values);
                }
                Reply::Trap(number) => {
                    text.extend_from_slice(b" trap ");
                    push_number(text, u64::from(*number));
                }
            }
        }
    }
    text.push(b'\n');
}

fn record(machine: &Machine) -> Vec<u8> {
    let mut text = format!("obl0 record 2\nn {}\nb {BUDGET}\n", machine.sizes.processes).into_bytes();
    let mut order = &machine.order[..];
    for event in &machine.history {
        push_event(&mut text, event, &mut order);
    }
    text.push(b'O');
    push_ids(&mut text, &machine.order);
    text.extend_from_slice(b"\nS");
    for turns in &machine.schedule {
        text.push(b' ');
        push_number(&mut text, u64::from(turns.process));
        text.push(b'*');
        push_number(&mut text, turns.count);
    }
    text.push(b'\n');
    for ((name, kind), word) in VARIABLES.iter().zip(&machine.words[machine.root * machine.sizes.block..]) {
        text.extend_from_slice(b"V ");
        text.extend_from_slice(name.as_bytes());
        push_value(&mut text, *kind, *word as i32);
        text.push(b'\n');
    }
    text
}

// ---- records read back ----

/// A call of a record.
struct Told {
    procedure: u16,
    is_listed: bool,
    arguments: Values,
    /// Which event its Begin is.
    begin: usize,
    end: Option<End>,
}

struct End {
    /// Which event it is.
    at: usize,
    reply: Reply,
}

struct Record {
    budget: u32,
    /// The calls of each process.
    calls: Vec<Vec<Told>>,
    order: Vec<CallId>,
}

/// What a record tells. A fault is the line that is missing, or not of its form or place.
fn read_record(text: &[u8]) -> Result<Record, Fault> {
    let mut reader = Reader::new(text.strip_suffix(b"\n").unwrap_or(text));
    read_lines(&mut reader).ok_or_else(|| format!("F1 line {}", reader.line))
}

fn read_lines(reader: &mut Reader) -> Option<Record> {
    let is_budgeted = read_title(reader)?;
    let processes = read_number(reader, b"n", 1, MOST_PROCESSES as u64)?;
    let budget = if is_budgeted { read_number(reader, b"b", 0, MOST_TURNS)? } else { MOST_TURNS };
    let calls = (0..processes).map(|_| Vec::new()).collect();
    let mut record = Record { budget: budget as u32, calls, order: Vec::new() };
    let mut events = 0;
    loop {
        match reader.word()? {
            b"B" => read_begin(reader, &mut record, events)?,
            b"A" => while read_id(reader, &record)?.is_some() {},
            b"E" => read_end(reader, &mut record, events)?,
            b"O" => break,
            _ => return None,
        }
        events += 1;
        must_go_on(reader)?;
    }
    while let Some(id) = read_id(reader, &record)? {
        record.order.push(id);
    }
    while reader.next_line() {
        if !matches!(reader.word()?[0], b'S' | b'V') {
            return None;
        }
    }
    Some(record)
}

/// Goes on to the next line; where it is missing, that line is at fault.
fn must_go_on(reader: &mut Reader) -> Option<()> {
    if !reader.next_line() {
        reader.line += 1;
        return None;
    }
    Some(())
}

/// Reads the first line: whether a line with the budget belongs to a record of its version.
fn read_title(reader: &mut Reader) -> Option<bool> {
    let title = [reader.word()?, reader.word()?, reader.word()?];
    if title[0] != b"obl0" || title[1] != b"record" || reader.word().is_some() {
        return None;
    }
    let is_budgeted = match title[2] {
        b"1" => false,
        b"2" => true,
        _ => return None,
    };
    must_go_on(reader)?;
    Some(is_budgeted)
}

/// Reads a line of a word and a number.
fn read_number(reader: &mut Reader, name: &[u8], least: u64, most: u64) -> Option<u64> {
    if reader.word()? != name {
        return None;
    }
    let number = numeral(reader.word()?)?;
    if number < least || number > most || reader.word().is_some() {
        return None;
    }
    must_go_on(reader)?;
    Some(number)
}

/// The name of a call in the next word, or the line's end; `None` where it is of no process.
fn read_id(reader: &mut Reader, record: &Record) -> Option<Option<CallId>> {
    let Some(word) = reader.word() else {
        return Some(None);
    };
    let dot = word.iter().position(|byte| *byte == b'.')?;
    let (process, number) = (numeral(&word[..dot])?, numeral(&word[dot + 1..])?);
    if process >= record.calls.len() as u64 {
        return None;
    }
    Some(Some(CallId { process: process as u8, number }))
}

/// The call that begins has to be the next one of its process, with none open.
fn read_begin(reader: &mut Reader, record: &mut Record, begin: usize) -> Option<()> {
    let id = read_id(reader, record)??;
    let procedure = export_named(reader.word()?)?;
    let arguments = values(reader, &EXPORTS[procedure], false)?;
    let calls = &mut record.calls[usize::from(id.process)];
    if id.number.checked_sub(1)? != calls.len() as u64 || calls.last().is_some_and(|call| call.end.is_none()) {
        return None;
    }
    calls.push(Told { procedure: procedure as u16, is_listed: false, arguments, begin, end: None });
    Some(())
}

/// The call that ends has to be the open one of its process.
fn read_end(reader: &mut Reader, record: &mut Record, at: usize) -> Option<()> {
    let id = read_id(reader, record)??;
    let calls = &mut record.calls[usize::from(id.process)];
    let number = calls.len() as u64;
    let call = calls.last_mut().filter(|call| number == id.number && call.end.is_none())?;
    let reply = read_reply(reader, &EXPORTS[usize::from(call.procedure)])?;
    call.end = Some(End { at, reply });
    Some(())
}

fn read_reply(reader: &mut Reader, export: &Export) -> Option<Reply> {
    match reader.word()? {
        b"done" => Some(Reply::Done(values(reader, export, true)?)),
        b"trap" => {
            let number = numeral(reader.word()?)?;
            (matches!(number, 1..=5) && reader.word().is_none()).then_some(Reply::Trap(number as u8))
        }
        _ => None,
    }
}

// ---- the checker of orders ----

/// The call of an id, where there is one.
fn told(calls: &mut [Vec<Told>], id: CallId) -> Option<&mut Told> {
    let place = usize::try_from(id.number.checked_sub(1)?).ok()?;
    calls[usize::from(id.process)].get_mut(place)
}

fn check_order(mut record: Record) -> Result<(), Fault> {
    let fault = |name: &str, id: CallId| Err(format!("{name} {}.{}", id.process, id.number));
    for id in &record.order {
        match told(&mut record.calls, *id) {
            Some(call) if !call.is_listed => call.is_listed = true,
            _ => return fault("H2", *id),
        }
    }
    if let Some(id) = first_missing(&record.calls) {
        return fault("H1", id);
    }
    if let Some(id) = first_too_early(&mut record) {
        return fault("H3", id);
    }
    match first_other(&mut record) {
        Some(id) => fault("H4", id),
        None => Ok(()),
    }
}

/// The first call, by its End, that has ended and that the order lacks.
fn first_missing(calls: &[Vec<Told>]) -> Option<CallId> {
    let mut first: Option<(usize, CallId)> = None;
    for (process, calls) in calls.iter().enumerate() {
        for (place, call) in calls.iter().enumerate().filter(|(_, call)| !call.is_listed) {
            if let Some(end) = &call.end
                && first.is_none_or(|(least, _)| end.at < least)
            {
                first = Some((end.at, CallId { process: process as u8, number: place as u64 + 1 }));
            }
        }
    }
    first.map(|(_, id)| id)
}

/// The first call that began after the end of one that stands behind it, found from the end of the order.
fn first_too_early(record: &mut Record) -> Option<CallId> {
    let (mut first, mut least) = (None, usize::MAX);
    for id in record.order.iter().rev() {
        let call = told(&mut record.calls, *id)?;
        if least < call.begin {
            first = Some(*id);
        }
        if let Some(end) = &call.end {
            least = least.min(end.at);
        }
    }
    first
}

/// The first call that, made at its place in the order, ends with another reply than the record's.
fn first_other(record: &mut Record) -> Option<CallId> {
    let mut object = Object::new();
    for id in &record.order {
        let call = told(&mut record.calls, *id)?;
        let turn = object.made(call.procedure, &call.arguments, record.budget);
        let is_same = match (turn, call.end.as_ref().map(|end| &end.reply)) {
            (BodyTurn::Trapped(number), reply) => reply.is_none_or(|reply| *reply == Reply::Trap(number)),
            (_, Some(Reply::Done(values))) => values.as_slice().iter().map(|value| i64::from(*value)).eq(object.body.stack.iter().copied()),
            (_, reply) => reply.is_none(),
        };
        if !is_same {
            return Some(*id);
        }
    }
    None
}

// ---- calls one after the other ----

/// The variables, and what a call on them needs.
struct Object {
    code: Code,
    body: Body,
    words: Vec<i64>,
    block: Vec<i64>,
    before: Vec<i64>,
}

impl Object {
    fn new() -> Object {
        let block = vec![0; VARIABLES.len()];
        Object { code: Code::read(LISTING), body: Body::new(), words: vec![0; Sizes::of(1).arguments], before: block.clone(), block }
    }

    /// Makes a call. Its reply stands on the body's stack; one that traps leaves the variables as they were.
    fn made(&mut self, procedure: u16, arguments: &Values, budget: u32) -> BodyTurn {
        self.words[0] = i64::from(procedure);
        for (word, value) in self.words[1..].iter_mut().zip(arguments.as_slice()) {
            *word = i64::from(*value);
        }
        self.before.copy_from_slice(&self.block);
        self.body.start(&self.code, &self.words, budget);
        let (_, turn) = self.body.run(&self.code, &mut self.block, u64::MAX);
        if matches!(turn, BodyTurn::Trapped(_)) {
            self.block.copy_from_slice(&self.before);
        }
        turn
    }
}

/// The calls of a script in their order, each with its process.
fn read_calls(text: &[u8]) -> Result<Vec<(u8, Call)>, Fault> {
    let mut reader = Reader::new(text);
    let mut calls = Vec::new();
    loop {
        if let Some(first) = reader.word()
            && first[0] != b'#'
        {
            let (process, call) = script_call(&mut reader, first, MOST_PROCESSES).map_err(|fault| format!("{fault} line {}", reader.line))?;
            calls.push((process as u8, call));
        }
        if !reader.next_line() {
            return Ok(calls);
        }
    }
}

/// The lines of the replies.
fn replies(calls: &[(u8, Call)]) -> Vec<u8> {
    let (mut text, mut object, mut numbers) = (Vec::new(), Object::new(), [0; MOST_PROCESSES]);
    for (process, call) in calls {
        let number = &mut numbers[usize::from(*process)];
        *number += 1;
        text.extend_from_slice(b"E ");
        push_id(&mut text, *process, *number);
        match object.made(call.procedure, &call.arguments, MOST_TURNS as u32) {
            BodyTurn::Trapped(number) => {
                text.extend_from_slice(b" trap ");
                push_number(&mut text, u64::from(number));
            }
            _ => {
                text.extend_from_slice(b" done");
                for (kind, word) in EXPORTS[usize::from(call.procedure)].kinds(true).zip(&object.body.stack) {
                    push_value(&mut text, kind, *word as i32);
                }
            }
        }
        text.push(b'\n');
    }
    text
}

// ---- commands ----

fn read_file(name: &str) -> Result<Vec<u8>, Fault> {
    fs::read(name).map_err(|_| format!("cannot read {name}"))
}

fn run(script: &str, schedule: &str, n: &str) -> Result<Vec<u8>, Fault> {
    let (script, schedule) = (read_file(script)?, read_file(schedule)?);
    let n = n.parse().ok().filter(|n| (1..=MOST_PROCESSES).contains(n)).ok_or("N1")?;
    let mut machine = Machine::new(n);
    read_script(&script, &mut machine)?;
    for (place, item) in read_schedule(&schedule, n)?.into_iter().enumerate() {
        if !machine.play(item) {
            return Err(format!("Q3 item {}", place + 1));
        }
    }
    for q in &machine.processes {
        black_box((&q.spent, &q.flip_mark));
    }
    black_box(&machine.root_marks);
    Ok(record(&machine))
}

fn verify(record: &str) -> Result<Vec<u8>, Fault> {
    let text = read_file(record)?;
    check_order(read_record(&text)?)?;
    Ok(b"ok\n".to_vec())
}

fn seq(script: &str) -> Result<Vec<u8>, Fault> {
    Ok(replies(&read_calls(&read_file(script)?)?))
}

fn main() -> ExitCode {
    let words: Vec<String> = env::args().skip(1).collect();
    let words: Vec<&str> = words.iter().map(String::as_str).collect();
    let done = match words[..] {
        ["run", script, schedule, "-n", n] => run(script, schedule, n),
        ["verify", record] => verify(record),
        ["seq", script] => seq(script),
        _ => Err("the words are: run SCRIPT SCHEDULE -n N, or: verify RECORD, or: seq SCRIPT".to_string()),
    };
    match done {
        Ok(text) if io::stdout().write_all(&text).is_ok() => ExitCode::SUCCESS,
        Ok(_) => ExitCode::from(3),
        Err(fault) => {
            eprintln!("{fault}");
            ExitCode::FAILURE
        }
    }
}
