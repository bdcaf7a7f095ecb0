//! What `obl0 verify` and `obl0 order` do for histories of a counter and of a register, in plain Rust, with nothing proved of it. It knows
//! the operations of both objects by heart: Inc and Get = v, and Write v, Read = v and Swap v = old. All begin with 0.
//!
//!     plain_order given RECORD    checks the order of the O line
//!     plain_order search RECORD   searches one, and prints it as an O line
//!
//! The search goes by how many calls of each process are made, and keeps those counts with the state behind them, so that none is looked at
//! twice. Of the calls that may come next it tries the one that began first, but for two rules: an ended call that writes in no state, and
//! whose reply fits, comes at once, alone; and of calls with the same operation and arguments only the one that ends first comes. Calls
//! that never end may be in the order or not. Status 1: the order is no legal one, or there is none.

use std::collections::HashSet;
use std::env;
use std::fs;
use std::hash::{BuildHasherDefault, Hasher};
use std::io::{self, Write};
use std::mem;
use std::process::ExitCode;

const PROCESSES: usize = 16;
const NEVER: u32 = u32::MAX;

#[derive(Clone, Copy, PartialEq, Eq)]
enum Operation {
    Inc,
    Get,
    Write(i64),
    Swap(i64),
}

/// A call: its places in the history, and its reply where it has ended.
#[derive(Clone, Copy)]
struct Call {
    process: usize,
    number: u32,
    operation: Operation,
    begin: u32,
    end: u32,
    reply: i64,
}

impl Call {
    /// The state behind the call, where its reply can be that.
    #[inline]
    fn made_on(&self, state: i64) -> Option<i64> {
        let fits = self.end == NEVER || self.reply == state;
        match self.operation {
            Operation::Inc => Some(state + 1),
            Operation::Get => fits.then_some(state),
            Operation::Write(value) => Some(value),
            Operation::Swap(value) => fits.then_some(value),
        }
    }
}

struct History {
    /// In the order in which they begin.
    calls: Vec<Call>,
    /// Of each process, the places of its calls.
    places: Vec<Vec<u32>>,
    order: Vec<(usize, u32)>,
}

// ---- reading ----

fn number(word: &[u8]) -> i64 {
    let (sign, digits) = if word[0] == b'-' { (-1, &word[1..]) } else { (1, word) };
    sign * digits.iter().fold(0, |sum, digit| sum * 10 + i64::from(digit - b'0'))
}

fn id(word: &[u8]) -> (usize, u32) {
    let dot = word.iter().position(|byte| *byte == b'.').expect("an id");
    (number(&word[..dot]) as usize, number(&word[dot + 1..]) as u32)
}

fn operation(name: &[u8], argument: Option<i64>) -> Operation {
    match (name, argument) {
        (b"Inc", None) => Operation::Inc,
        (b"Get" | b"Read", None) => Operation::Get,
        (b"Write", Some(value)) => Operation::Write(value),
        (b"Swap", Some(value)) => Operation::Swap(value),
        _ => panic!("no call of a counter or of a register"),
    }
}

/// The B, E and O lines of a record.
fn read(text: &[u8]) -> History {
    let mut history = History { calls: Vec::new(), places: vec![Vec::new(); PROCESSES], order: Vec::new() };
    let mut events = 0;
    for line in text.split(|byte| *byte == b'\n') {
        let mut words = line.split(|byte| *byte == b' ');
        match words.next() {
            Some(b"B") => {
                let (process, number_of_call) = id(words.next().expect("an id"));
                let name = words.next().expect("a name");
                let operation = operation(name, words.next().map(number));
                history.places[process].push(history.calls.len() as u32);
                history.calls.push(Call { process, number: number_of_call, operation, begin: events, end: NEVER, reply: 0 });
                events += 1;
            }
            Some(b"E") => {
                let (process, _) = id(words.next().expect("an id"));
                let place = *history.places[process].last().expect("a call that began");
                let call = &mut history.calls[place as usize];
                call.end = events;
                assert_eq!(words.next(), Some(&b"done"[..]), "no call traps");
                call.reply = words.next().map_or(0, number);
                events += 1;
            }
            Some(b"O") => history.order = words.map(id).collect(),
            _ => {}
        }
    }
    history
}

// ---- an order that is given ----

/// The fault of the order, where it is no legal one: H1 to H4, each by a pass of its own.
fn fault_of(history: &History) -> Result<(), &'static str> {
    let mut is_listed = vec![false; history.calls.len()];
    let mut places = Vec::with_capacity(history.order.len());
    for (process, number) in &history.order {
        let place = *history.places[*process].get(*number as usize - 1).ok_or("H2")?;
        if mem::replace(&mut is_listed[place as usize], true) {
            return Err("H2");
        }
        places.push(place);
    }
    if history.calls.iter().zip(&is_listed).any(|(call, is_listed)| call.end != NEVER && !is_listed) {
        return Err("H1");
    }
    let mut least = NEVER;
    for place in places.iter().rev() {
        let call = &history.calls[*place as usize];
        if least < call.begin {
            return Err("H3");
        }
        least = least.min(call.end);
    }
    let mut state = 0;
    for place in &places {
        state = history.calls[*place as usize].made_on(state).ok_or("H4")?;
    }
    Ok(())
}

// ---- the search ----

#[derive(Default)]
struct Fold(u64);

impl Hasher for Fold {
    fn finish(&self) -> u64 {
        self.0 ^ (self.0 >> 29)
    }
    fn write(&mut self, bytes: &[u8]) {
        for part in bytes.chunks(8) {
            let mut word = [0; 8];
            word[..part.len()].copy_from_slice(part);
            self.write_u64(u64::from_le_bytes(word));
        }
    }
    fn write_u64(&mut self, word: u64) {
        self.0 = (self.0.rotate_left(5) ^ word).wrapping_mul(0x9E37_79B9_7F4A_7C15);
    }
    fn write_i64(&mut self, word: i64) {
        self.write_u64(word as u64);
    }
    fn write_usize(&mut self, word: usize) {
        self.write_u64(word as u64);
    }
}

/// The counts of calls made, two in a word, and the state behind them.
type Configuration = ([u64; PROCESSES / 2], i64);

/// The processes of which a call may come next, on some state, and the next one to be tried.
struct Choice {
    state: i64,
    next: u8,
    length: u8,
    processes: [u8; PROCESSES],
}

struct Search<'a> {
    history: &'a History,
    made: [u32; PROCESSES],
    /// How many calls are left that have ended.
    left: usize,
    known: HashSet<Configuration, BuildHasherDefault<Fold>>,
    choices: Vec<Choice>,
    order: Vec<u32>,
}

impl Search<'_> {
    /// The next call of a process.
    fn next_of(&self, process: usize) -> Option<&Call> {
        let place = self.history.places[process].get(self.made[process] as usize)?;
        Some(&self.history.calls[*place as usize])
    }

    /// The processes whose next call began before any that is left ended, in the order in which these began.
    fn beginners(&self) -> Choice {
        let mut found = Choice { state: 0, next: 0, length: 0, processes: [0; PROCESSES] };
        let mut begins = [0; PROCESSES];
        let first_end = (0..PROCESSES).filter_map(|process| self.next_of(process)).map(|call| call.end).min().unwrap_or(NEVER);
        for process in 0..PROCESSES {
            let Some(call) = self.next_of(process).filter(|call| call.begin < first_end) else { continue };
            let mut at = found.length as usize;
            while at > 0 && begins[at - 1] > call.begin {
                begins[at] = begins[at - 1];
                found.processes[at] = found.processes[at - 1];
                at -= 1;
            }
            begins[at] = call.begin;
            found.processes[at] = process as u8;
            found.length += 1;
        }
        found
    }

    /// What is to be tried on a state, by the two rules.
    fn choice(&self, state: i64) -> Choice {
        let all = self.beginners();
        let mut found = Choice { state, next: 0, length: 0, processes: [0; PROCESSES] };
        for process in &all.processes[..all.length as usize] {
            let call = self.next_of(usize::from(*process)).expect("a call");
            if call.made_on(state).is_none() {
                continue;
            }
            if call.operation == Operation::Get {
                if call.end != NEVER {
                    (found.processes[0], found.length) = (*process, 1);
                    break;
                }
                continue;
            }
            let other = |at: &usize| self.next_of(usize::from(found.processes[*at])).expect("a call");
            match (0..found.length as usize).find(|at| other(at).operation == call.operation) {
                Some(at) if other(&at).end > call.end => found.processes[at] = *process,
                Some(_) => {}
                None => {
                    found.processes[found.length as usize] = *process;
                    found.length += 1;
                }
            }
        }
        found
    }

    /// Takes the last call of the order back; false where there is none.
    fn take_back(&mut self) -> bool {
        self.choices.pop();
        let Some(place) = self.order.pop() else { return false };
        let call = &self.history.calls[place as usize];
        self.made[call.process] -= 1;
        self.left += usize::from(call.end != NEVER);
        true
    }

    /// Makes the next call of a process on a state, where nobody has come to what is behind it.
    fn make(&mut self, process: usize, state: i64) {
        let place = self.history.places[process][self.made[process] as usize];
        let call = &self.history.calls[place as usize];
        let Some(behind) = call.made_on(state) else { return };
        self.made[process] += 1;
        let counts = std::array::from_fn(|pair| u64::from(self.made[2 * pair]) | u64::from(self.made[2 * pair + 1]) << 32);
        if !self.known.insert((counts, behind)) {
            self.made[process] -= 1;
            return;
        }
        self.left -= usize::from(call.end != NEVER);
        self.order.push(place);
        self.choices.push(self.choice(behind));
    }
}

/// The places of calls in a legal order.
fn order_of(history: &History) -> Option<Vec<u32>> {
    let left = history.calls.iter().filter(|call| call.end != NEVER).count();
    let (known, choices) = (HashSet::default(), Vec::new());
    let mut search = Search { history, made: [0; PROCESSES], left, known, choices, order: Vec::new() };
    search.choices.push(search.choice(0));
    while search.left > 0 {
        let top = search.choices.last_mut()?;
        if top.next == top.length {
            if !search.take_back() {
                return None;
            }
            continue;
        }
        let (process, state) = (top.processes[top.next as usize] as usize, top.state);
        top.next += 1;
        search.make(process, state);
    }
    Some(search.order)
}

fn line_of(history: &History, order: &[u32]) -> Vec<u8> {
    let mut line = b"O".to_vec();
    for place in order {
        let call = &history.calls[*place as usize];
        write!(line, " {}.{}", call.process, call.number).expect("a vector takes it");
    }
    line.push(b'\n');
    line
}

fn main() -> ExitCode {
    let words: Vec<String> = env::args().skip(1).collect();
    let [mode, file] = &words[..] else { panic!("the words are: given RECORD, or: search RECORD") };
    let history = read(&fs::read(file).expect("a record"));
    let (text, is_legal) = match mode.as_str() {
        "given" => match fault_of(&history) {
            Ok(()) => (b"ok\n".to_vec(), true),
            Err(fault) => (format!("{fault}\n").into_bytes(), false),
        },
        "search" => match order_of(&history) {
            Some(order) => (line_of(&history, &order), true),
            None => (b"X1\n".to_vec(), false),
        },
        other => panic!("{other}: neither given nor search"),
    };
    io::stdout().write_all(&text).expect("a place to print to");
    ExitCode::from(u8::from(!is_legal))
}
