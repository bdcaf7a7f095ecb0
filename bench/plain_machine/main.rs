//! The step machine over the adding engine in plain Rust, without proofs: the rows of the same table, the same records and the
//! same counts, by the same steps as `bench/machine_steps`. The words are the numbers of processes and of steps; it prints the
//! calls that were answered, its nanoseconds, and the sum in the end.

use std::env;
use std::hint::black_box;
use std::time::Instant;

#[derive(Clone, Copy, PartialEq, Eq)]
enum Label {
    Next,
    Post,
    Flip,
    Try,
    Link,
    Load,
    Store,
    Check1,
    Mine,
    Seen,
    Fetch,
    Check2,
    Save,
    Enter,
    Body,
    Undo,
    Keep,
    Commit,
    Read,
    Take,
    Give,
}

#[derive(Clone, Copy)]
#[allow(dead_code)]
enum Scalar {
    Int(i32),
    Bool(bool),
}

/// Up to eight values in place.
#[derive(Clone, Copy)]
struct Values {
    len: usize,
    items: [Scalar; 8],
}

#[derive(Clone, Copy)]
struct Call {
    proc: usize,
    args: Values,
}

#[derive(Clone, Copy)]
#[allow(dead_code)]
enum Reply {
    Done(Values),
    Trap(u8),
}

#[derive(Clone, Copy)]
#[allow(dead_code)]
struct CallId {
    process: usize,
    number: u64,
}

#[allow(dead_code)]
enum Event {
    Begin(CallId, Call),
    Applied(Vec<CallId>),
    End(CallId, Reply),
}

#[allow(dead_code)]
enum StepOut {
    On,
    Began(CallId),
    Answered(CallId, Reply),
    Halted,
}

struct Turns {
    process: usize,
    count: u64,
}

#[derive(Clone, Copy, Default)]
struct Spent {
    bodies: u128,
    inside: u128,
    outside: u128,
}

/// The adding engine's run: the argument, and the sum once it is made.
#[derive(Clone, Copy, Default)]
struct Adding {
    argument: i64,
    sum: i64,
}

#[allow(dead_code)]
enum EngineTurn {
    On,
    Returned,
    Trapped(u8),
}

struct Process {
    label: Label,
    calls: Vec<Call>,
    begun: usize,
    r: usize,
    acc: i64,
    i: usize,
    j: usize,
    round: u8,
    status: i64,
    list: Vec<i64>,
    replies: Vec<i64>,
    save: Vec<i64>,
    run: Adding,
}

const VARIABLES: usize = 1;
const REPLIES: usize = 1;
const ARGUMENTS: usize = 1;
const PART: usize = REPLIES + 2;

/// The words of all blocks lie in one list, and those of all announcements in another.
struct Machine {
    n: usize,
    words: usize,
    root: usize,
    own: Vec<usize>,
    linked: Vec<bool>,
    blocks: Vec<i64>,
    announcements: Vec<i64>,
    processes: Vec<Process>,
    history: Vec<Event>,
    order: Vec<CallId>,
    schedule: Vec<Turns>,
    flip_marks: Vec<usize>,
    root_marks: Vec<usize>,
    spent: Vec<Spent>,
}

impl Adding {
    fn start(words: &[i64]) -> Adding {
        Adding {
            argument: words[0],
            sum: 0,
        }
    }

    fn step(&mut self, block: &mut [i64]) -> EngineTurn {
        let sum = block[0].wrapping_add(self.argument);
        block[0] = sum;
        self.sum = sum;
        EngineTurn::Returned
    }
}

fn values(word: i64) -> Values {
    let mut items = [Scalar::Int(0); 8];
    items[0] = Scalar::Int(word as i32);
    Values { len: 1, items }
}

fn word_of(scalar: Scalar) -> i64 {
    match scalar {
        Scalar::Int(value) => i64::from(value),
        Scalar::Bool(value) => i64::from(value),
    }
}

fn turned(toggle: i64) -> i64 {
    if toggle == 0 { 1 } else { 0 }
}

impl Machine {
    fn new(n: usize) -> Machine {
        let words = VARIABLES + n * PART;
        let idle = |_| Process {
            label: Label::Next,
            calls: Vec::new(),
            begun: 0,
            r: 0,
            acc: 0,
            i: 0,
            j: 0,
            round: 0,
            status: 0,
            list: vec![0; ARGUMENTS],
            replies: vec![0; REPLIES + 1],
            save: vec![0; VARIABLES],
            run: Adding::default(),
        };
        Machine {
            n,
            words,
            root: 0,
            own: (1..=n).collect(),
            linked: vec![false; n],
            blocks: vec![0; (n + 1) * words],
            announcements: vec![0; n * (ARGUMENTS + 1)],
            processes: (0..n).map(idle).collect(),
            history: Vec::new(),
            order: Vec::new(),
            schedule: Vec::new(),
            flip_marks: vec![0; n],
            root_marks: vec![0; n + 1],
            spent: vec![Spent::default(); n],
        }
    }

    fn toggle(&self, block: usize, q: usize) -> i64 {
        self.blocks[block * self.words + VARIABLES + q * PART + REPLIES + 1]
    }

    fn announced_toggle(&self, q: usize) -> i64 {
        self.announcements[q * (ARGUMENTS + 1) + ARGUMENTS]
    }

    fn count_turn(&mut self, p: usize) {
        match self.schedule.last_mut() {
            Some(turns) if turns.process == p && turns.count < u64::MAX => turns.count += 1,
            _ => self.schedule.push(Turns {
                process: p,
                count: 1,
            }),
        }
    }

    fn count_step(&mut self, p: usize, label: Label, begins: bool) {
        let spent = &mut self.spent[p];
        match label {
            Label::Next if begins => {
                *spent = Spent {
                    outside: 1,
                    ..Spent::default()
                }
            }
            Label::Next => {}
            Label::Enter => {
                spent.bodies += 1;
                spent.outside += 1;
            }
            Label::Body => spent.inside += 1,
            _ => spent.outside += 1,
        }
    }

    /// Notes what a step shows.
    fn note(&mut self, p: usize) -> StepOut {
        let q = &self.processes[p];
        let out = match q.label {
            Label::Next if q.begun < q.calls.len() => {
                let id = CallId {
                    process: p,
                    number: q.begun as u64 + 1,
                };
                self.history.push(Event::Begin(id, q.calls[q.begun]));
                StepOut::Began(id)
            }
            Label::Next => StepOut::Halted,
            Label::Commit if self.linked[p] => {
                let own = self.own[p];
                let mut ids = Vec::with_capacity(self.n);
                for other in 0..self.n {
                    if self.toggle(self.root, other) != self.toggle(own, other) {
                        ids.push(CallId {
                            process: other,
                            number: self.processes[other].begun as u64,
                        });
                    }
                }
                self.order.extend_from_slice(&ids);
                self.history.push(Event::Applied(ids));
                self.root_marks[own] = self.history.len();
                StepOut::On
            }
            Label::Give => {
                let id = CallId {
                    process: p,
                    number: q.begun as u64,
                };
                let reply = match q.replies[0] {
                    0 => Reply::Done(values(q.replies[1])),
                    status => Reply::Trap(status as u8),
                };
                self.history.push(Event::End(id, reply));
                StepOut::Answered(id, reply)
            }
            Label::Flip => {
                self.flip_marks[p] = self.history.len();
                StepOut::On
            }
            _ => StepOut::On,
        };
        self.count_turn(p);
        out
    }

    fn step(&mut self, p: usize) -> StepOut {
        let process = &self.processes[p];
        let (label, begins) = (process.label, process.begun < process.calls.len());
        let out = self.note(p);
        self.count_step(p, label, begins);
        self.act(p);
        out
    }

    fn act(&mut self, p: usize) {
        let (n, words, own) = (self.n, self.words, self.own[p]);
        let own_toggle =
            |blocks: &[i64], q: usize| blocks[own * words + VARIABLES + q * PART + REPLIES + 1];
        let q = &mut self.processes[p];
        let i = q.i;
        match q.label {
            Label::Next => {
                if q.begun < q.calls.len() {
                    q.list[0] = word_of(q.calls[q.begun].args.items[0]);
                    q.begun += 1;
                    q.i = 0;
                    q.label = Label::Post;
                }
            }
            Label::Post => {
                self.announcements[p * (ARGUMENTS + 1) + i] = q.list[i];
                q.i = i + 1;
                if i + 1 == ARGUMENTS {
                    q.label = Label::Flip;
                }
            }
            Label::Flip => {
                let toggle = &mut self.announcements[p * (ARGUMENTS + 1) + ARGUMENTS];
                *toggle = turned(*toggle);
                q.round = 0;
                q.label = Label::Try;
            }
            Label::Try => {
                if q.round == 2 {
                    q.label = Label::Read;
                } else {
                    q.round += 1;
                    q.label = Label::Link;
                }
            }
            Label::Link => {
                self.linked[p] = true;
                q.r = self.root;
                q.i = 0;
                q.label = Label::Load;
            }
            Label::Load => {
                q.acc = self.blocks[q.r * words + i];
                q.label = Label::Store;
            }
            Label::Store => {
                self.blocks[own * words + i] = q.acc;
                q.i = i + 1;
                q.label = if i + 1 == words {
                    Label::Check1
                } else {
                    Label::Load
                };
            }
            Label::Check1 | Label::Check2 => {
                if self.linked[p] {
                    q.i = 0;
                    q.label = if q.label == Label::Check1 {
                        Label::Mine
                    } else {
                        Label::Save
                    };
                } else {
                    q.label = Label::Try;
                }
            }
            Label::Mine => {
                if own_toggle(&self.blocks, p)
                    == self.announcements[p * (ARGUMENTS + 1) + ARGUMENTS]
                {
                    q.label = Label::Read;
                } else {
                    q.j = 0;
                    q.label = Label::Seen;
                }
            }
            Label::Seen => {
                let j = q.j;
                if j == n {
                    q.label = Label::Commit;
                } else if own_toggle(&self.blocks, j)
                    == self.announcements[j * (ARGUMENTS + 1) + ARGUMENTS]
                {
                    q.j = j + 1;
                } else {
                    q.i = 0;
                    q.label = Label::Fetch;
                }
            }
            Label::Fetch => {
                q.list[i] = self.announcements[q.j * (ARGUMENTS + 1) + i];
                q.i = i + 1;
                if i + 1 == ARGUMENTS {
                    q.label = Label::Check2;
                }
            }
            Label::Save => {
                q.save[i] = self.blocks[own * words + i];
                q.i = i + 1;
                if i + 1 == VARIABLES {
                    q.label = Label::Enter;
                }
            }
            Label::Enter => {
                q.run = Adding::start(&q.list);
                q.label = Label::Body;
            }
            Label::Body => {
                let block = &mut self.blocks[own * words..own * words + VARIABLES];
                match q.run.step(block) {
                    EngineTurn::On => {}
                    EngineTurn::Returned => {
                        q.i = 0;
                        q.status = 0;
                        q.label = Label::Keep;
                    }
                    EngineTurn::Trapped(k) => {
                        q.i = 0;
                        q.status = i64::from(k);
                        q.label = Label::Undo;
                    }
                }
            }
            Label::Undo => {
                self.blocks[own * words + i] = q.save[i];
                if i + 1 == VARIABLES {
                    q.i = 0;
                    q.label = Label::Keep;
                } else {
                    q.i = i + 1;
                }
            }
            Label::Keep => {
                let w = if i == 0 {
                    q.status
                } else if i == REPLIES + 1 {
                    turned(own_toggle(&self.blocks, q.j))
                } else if q.status == 0 {
                    q.run.sum
                } else {
                    0
                };
                self.blocks[own * words + VARIABLES + q.j * PART + i] = w;
                if i + 1 == PART {
                    q.i = 0;
                    q.j += 1;
                    q.label = Label::Seen;
                } else {
                    q.i = i + 1;
                }
            }
            Label::Commit => {
                q.label = if self.linked[p] {
                    Label::Read
                } else {
                    Label::Try
                };
                if self.linked[p] {
                    std::mem::swap(&mut self.root, &mut self.own[p]);
                    self.linked.fill(false);
                }
            }
            Label::Read => {
                q.r = self.root;
                q.i = 0;
                q.label = Label::Take;
            }
            Label::Take => {
                q.replies[i] = self.blocks[q.r * words + VARIABLES + p * PART + i];
                q.i = i + 1;
                if i + 1 == REPLIES + 1 {
                    q.label = Label::Give;
                }
            }
            Label::Give => q.label = Label::Next,
        }
    }
}

/// Calls for so many steps, and some more: a call is at least 20 steps of its own process.
fn submit_all(machine: &mut Machine, steps: u32) {
    let calls = steps as usize / machine.n / 20 + 1000;
    for _ in 0..calls {
        for process in &mut machine.processes {
            process.calls.push(Call {
                proc: 0,
                args: values(1),
            });
        }
    }
}

fn main() {
    let given: Vec<u64> = env::args()
        .skip(1)
        .filter_map(|word| word.parse().ok())
        .collect();
    let [n, steps] = given[..] else {
        panic!("the words are: PROCESSES STEPS");
    };
    let (n, steps) = (n as usize, steps as u32);
    let mut machine = Machine::new(n);
    submit_all(&mut machine, steps);
    let start = Instant::now();
    let (mut answered, mut halted, mut seed) = (0u32, 0u32, 1u64);
    for _ in 0..steps {
        seed = seed
            .wrapping_mul(6364136223846793005)
            .wrapping_add(1442695040888963407);
        match machine.step((seed >> 33) as usize % n) {
            StepOut::Answered(_, _) => answered += 1,
            StepOut::Halted => halted += 1,
            StepOut::On | StepOut::Began(_) => {}
        }
    }
    let nanos = start.elapsed().as_nanos();
    assert!(halted == 0, "a process had no call left");
    let first = machine.processes[0].calls[0].proc + machine.processes[0].calls[0].args.len;
    black_box((&machine.history, &machine.order, &machine.schedule, first));
    let sum = machine.blocks[machine.root * machine.words];
    println!("{answered} {nanos} {sum} {}", machine.announced_toggle(0));
}
