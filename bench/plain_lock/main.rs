//! What a lock adds to a short piece of work, by one thread that nobody disturbs: nanoseconds for a piece by itself, and with a word
//! taken before it and given back behind it, in four ways. `plain_lock [PIECES]`; the quickest of five rounds counts.
use std::hint::black_box;
use std::sync::atomic::{AtomicU64, Ordering};
use std::time::Instant;

const ROUNDS: usize = 5;
const FREE: u64 = 1;
const TAKEN: u64 = 0;

/// Some sixty instructions over a little memory, as a step has them.
#[inline(never)]
fn piece(words: &mut [u64; 64], turn: u64) -> u64 {
    let mut sum = words[(turn & 63) as usize];
    for k in 0..8 {
        sum = sum.wrapping_add(words[((turn + k) & 63) as usize] ^ k);
        words[((turn + 7 * k) & 63) as usize] = sum;
    }
    sum
}

fn take(lock: &AtomicU64) {
    while lock.compare_exchange(FREE, TAKEN, Ordering::SeqCst, Ordering::SeqCst).is_err() {}
}

fn exchange_back(lock: &AtomicU64) {
    assert!(lock.compare_exchange(TAKEN, FREE, Ordering::SeqCst, Ordering::SeqCst).is_ok());
}

/// The nanoseconds of a piece, with what is done before and behind it.
fn timed(pieces: u64, take: impl Fn(&AtomicU64), give_back: impl Fn(&AtomicU64)) -> f64 {
    let lock = AtomicU64::new(FREE);
    let mut words = [1; 64];
    let round = |words: &mut [u64; 64]| {
        let begun = Instant::now();
        for turn in 0..pieces {
            take(black_box(&lock));
            black_box(piece(words, turn));
            give_back(black_box(&lock));
        }
        begun.elapsed().as_nanos() as f64 / pieces as f64
    };
    (0..ROUNDS).map(|_| round(&mut words)).fold(f64::INFINITY, f64::min)
}

fn main() {
    let pieces = std::env::args().nth(1).map_or(10_000_000, |word| word.parse().expect("a number of pieces"));
    println!("{:>44} {:>6.1} ns", "no lock", timed(pieces, |_| (), |_| ()));
    println!("{:>44} {:>6.1} ns", "taken and given back by exchange", timed(pieces, take, exchange_back));
    println!("{:>44} {:>6.1} ns", "given back by a sequentially consistent store", timed(pieces, take, |lock| lock.store(FREE, Ordering::SeqCst)));
    println!("{:>44} {:>6.1} ns", "given back by a release store", timed(pieces, take, |lock| lock.store(FREE, Ordering::Release)));
}
