//! Threads that share nothing: how much processor time does a machine give to the given number of them? A peer of `bench/registry`.
//!
//!     rustc --edition 2021 -O bench/peers/arithmetic.rs && ./arithmetic THREADS MILLISECONDS
//!
//! Each thread steps a number of its own to the next. Prints how many thousands of steps all of them made.

use std::hint::black_box;
use std::sync::Barrier;
use std::sync::atomic::{AtomicBool, Ordering::Relaxed};
use std::time::Duration;
use std::{env, thread};

fn step(number: u64) -> u64 {
    let next = number.wrapping_mul(6364136223846793005).wrapping_add(1442695040888963407);
    next ^ next >> 29
}

/// How many thousands of steps are made until `stop`.
fn thousands_until(stop: &AtomicBool) -> u64 {
    let (mut number, mut thousands) = (1, 0);
    while !stop.load(Relaxed) {
        for _ in 0..1000 {
            number = step(number);
        }
        thousands += 1;
    }
    black_box(number);
    thousands
}

fn main() {
    let words: Vec<u64> = env::args().skip(1).map(|word| word.parse().expect("a number")).collect();
    let [threads, millis] = words[..] else { panic!("arithmetic THREADS MILLISECONDS") };
    let (start, stop) = (Barrier::new(threads as usize + 1), AtomicBool::new(false));
    let all: u64 = thread::scope(|scope| {
        let each: Vec<_> = (0..threads)
            .map(|_| {
                scope.spawn(|| {
                    start.wait();
                    thousands_until(&stop)
                })
            })
            .collect();
        start.wait();
        thread::sleep(Duration::from_millis(millis));
        stop.store(true, Relaxed);
        each.into_iter().map(|one| one.join().expect("a thread")).sum()
    });
    println!("{all}");
}
