//! What one would write by hand in place of `obl0 serve`: threads that share a counter under std's Mutex, with nothing proved of it:
//! plain_serve THREADS CALLS. Each thread makes so many calls, two of Inc and one of Get in turn, each in 37 small steps, as many as a call of
//! examples/counter.mod has for one process, and each step takes the lock and gives it back. The history, the order and the schedule are
//! kept. It prints the steps and the nanoseconds, from the moment in which all threads are there.

use std::env;
use std::hint::black_box;
use std::sync::{Barrier, Mutex};
use std::thread;
use std::time::Instant;

const STEPS: usize = 37;

/// An event: whether it is an end, the process, the call, the reply.
type Event = (bool, u8, u32, i64);

struct Desk {
    x: i64,
    words: [i64; 64],
    history: Vec<Event>,
    order: Vec<(u8, u32)>,
    schedule: Vec<(u8, u64)>,
}

impl Desk {
    fn count_turn(&mut self, process: u8) {
        match self.schedule.last_mut() {
            Some((last, count)) if *last == process => *count += 1,
            _ => self.schedule.push((process, 1)),
        }
    }

    fn step(&mut self, process: u8, call: u32, step: usize) {
        self.count_turn(process);
        self.words[(usize::from(process) * 7 + step) % 64] += step as i64;
        if step == 0 {
            self.history.push((false, process, call, 0));
        }
        if step + 1 == STEPS {
            let is_get = call % 3 == 2;
            self.x += i64::from(!is_get);
            self.order.push((process, call));
            self.history.push((true, process, call, if is_get { self.x } else { 0 }));
        }
    }
}

fn main() {
    let words: Vec<usize> = env::args().skip(1).map(|word| word.parse().expect("a number")).collect();
    let [threads, calls] = words[..] else { panic!("the words are: THREADS CALLS") };
    let desk = Mutex::new(Desk { x: 0, words: [0; 64], history: Vec::new(), order: Vec::new(), schedule: Vec::new() });
    let barrier = Barrier::new(threads + 1);
    let mut begin = Instant::now();
    thread::scope(|scope| {
        for process in 0..threads as u8 {
            let (desk, barrier) = (&desk, &barrier);
            scope.spawn(move || {
                barrier.wait();
                for call in 0..calls as u32 {
                    for step in 0..STEPS {
                        desk.lock().expect("a lock").step(process, call, step);
                    }
                }
            });
        }
        barrier.wait();
        begin = Instant::now();
    });
    let nanoseconds = begin.elapsed().as_nanos();
    let desk = desk.into_inner().expect("a lock");
    black_box((&desk.words, &desk.history, &desk.order, &desk.schedule, desk.x));
    println!("{} {nanoseconds}", threads * calls * STEPS);
}
