//! The commits that bench/drivers/head.rattle measures, made by an ordinary, unverified Rust program over the versions of
//! plain_versions.rs.
//!
//! A head retains the last 64 versions, and the batch of each commit. It checks nothing, since no other commit comes between.

use super::{Entry, Job, Version, entry_of, id_of, processor_time, scattered, started};
use std::collections::VecDeque;
use std::ops::Range;
use std::time::Duration;

const MOST_VERSIONS: usize = 64;

enum Batch {
    /// Entries that take the place of those with the same ids.
    Creates(Vec<Entry>),
    Deletes(Vec<u128>),
}

struct Head {
    window: VecDeque<Version>,
    batches: Vec<Batch>,
}

impl Head {
    fn empty() -> Self {
        Head {
            window: VecDeque::from(vec![Version::empty()]),
            batches: Vec::new(),
        }
    }

    /// Adds the next version, and drops the oldest one if there are 64.
    fn commit(&mut self, batch: Batch) {
        let newest = self.window.back().expect("a version");
        let next = match &batch {
            Batch::Creates(entries) => newest.after(entries),
            Batch::Deletes(ids) => newest.without(ids),
        };
        if self.window.len() == MOST_VERSIONS {
            self.window.pop_front();
        }
        self.window.push_back(next);
        self.batches.push(batch);
    }
}

fn creates(job: &Job, numbers: Range<u64>) -> Batch {
    Batch::Creates(numbers.map(|number| entry_of(job, number, 0)).collect())
}

fn deletes(numbers: Range<u64>) -> Batch {
    Batch::Deletes(numbers.map(id_of).collect())
}

fn filled(job: &Job) -> Head {
    let mut head = Head::empty();
    for first in (0..job.entries).step_by(job.batch) {
        let end = job.entries.min(first + job.batch as u64);
        head.commit(creates(job, first..end));
    }
    head
}

/// Commits a batch of creates, which is timed, and deletes them again, once the window has versions of this kind alone.
fn time_commits(job: &Job, head: &mut Head, numbers: Range<u64>) {
    let (mut wall, mut processor) = (Duration::ZERO, Duration::ZERO);
    for turn in 0..32 + job.times {
        let batch = creates(job, numbers.clone());
        let watch = started();
        head.commit(batch);
        if turn >= 32 {
            wall += watch.wall.elapsed();
            processor += processor_time() - watch.processor;
        }
        head.commit(deletes(numbers.clone()));
    }
    let count = numbers.end - numbers.start;
    println!("commit-{count} 0 {} {} {}", job.times, wall.as_micros(), processor.as_micros());
}

/// Commits batches of updates, of entries anywhere in the head; the commits are timed.
fn time_updates(job: &Job, head: &mut Head, count: u64) {
    let (mut wall, mut processor) = (Duration::ZERO, Duration::ZERO);
    for turn in 0..32 + job.times {
        let first = scattered(turn) % (job.entries.saturating_sub(count)).max(1);
        let batch = creates(job, first..first + count);
        let watch = started();
        head.commit(batch);
        if turn >= 32 {
            wall += watch.wall.elapsed();
            processor += processor_time() - watch.processor;
        }
    }
    println!("update-{count} 0 {} {} {}", job.times, wall.as_micros(), processor.as_micros());
}

/// Times commits that bring a head to the given number of entries, which name no trust domain.
pub fn measure(entries: u64) {
    let job = Job {
        entries: entries.saturating_sub(64),
        batch: 64,
        parents: 64,
        times: 100,
        has_domains: false,
        has_expiries: true,
        kept: 0,
    };
    let mut head = filled(&job);
    time_commits(&job, &mut head, 1_000_000..1_000_001);
    time_commits(&job, &mut head, 2_000_000..2_000_064);
    time_updates(&job, &mut head, 1);
    time_updates(&job, &mut head, 64);
}
