//! An ordinary, unverified Rust program in which many threads query one book and change it: the peer of `bench/registry`. It has
//! the same book, with the same indexes, under one `std::sync::RwLock`: a query holds it for reading while it follows the chains
//! of parents, and a change holds it for writing.
//!
//!     rustc --edition 2021 -O bench/peers/locked_book.rs && ./locked_book READERS WRITER SAME MILLISECONDS AGENTS
//!
//! Its command line, without the last word of that one, and its output are those of bench/drivers/registry.rattle.

use std::collections::{BTreeMap, BTreeSet, HashSet};
use std::sync::atomic::{AtomicBool, Ordering};
use std::sync::{Arc, RwLock};
use std::thread;
use std::time::{Duration, Instant};

const OWN: &str = "ex.org";
const ENTRIES: u64 = 10;
/// Readers with an agent each ask for each ninth one.
const APART: u64 = 9;
/// Times are recorded in steps of STEP nanoseconds, up to STEPS steps.
const STEP: u64 = 50;
const STEPS: usize = 200_000;

type Id = u128;

struct Entry {
    id: Id,
    parent: Arc<str>,
    identity: Arc<str>,
    selectors: BTreeSet<Arc<str>>,
}

/// Entries by their ids and by their parents, and the agents.
#[derive(Default)]
struct Book {
    place: u64,
    entries: BTreeMap<Id, Arc<Entry>>,
    children: BTreeMap<(Arc<str>, Id), Arc<Entry>>,
    agents: BTreeMap<Arc<str>, BTreeSet<Arc<str>>>,
}

impl Book {
    fn set_agent(&mut self, agent: &Arc<str>, selectors: &BTreeSet<Arc<str>>) {
        self.agents.insert(agent.clone(), selectors.clone());
        self.place += 1;
    }

    fn create(&mut self, entry: Entry) {
        let entry = Arc::new(entry);
        self.entries.insert(entry.id, entry.clone());
        self.children.insert((entry.parent.clone(), entry.id), entry);
    }

    fn update(&mut self, entry: Entry) {
        self.create(entry);
        self.place += 1;
    }

    fn children_of<'a>(&'a self, parent: &Arc<str>) -> impl Iterator<Item = &'a Arc<Entry>> {
        self.children.range((parent.clone(), 0)..=(parent.clone(), Id::MAX)).map(|(_, entry)| entry)
    }

    /// The place, and the entries at the end of a chain of parents from the agent, or from an alias that it holds, by their ids.
    fn authorised(&self, agent: &Arc<str>, server: &Arc<str>) -> (u64, Vec<Arc<Entry>>) {
        let mut found = BTreeMap::new();
        if let Some(selectors) = self.agents.get(agent) {
            let held = self.children_of(server).filter(|alias| alias.selectors.is_subset(selectors)).map(|alias| alias.identity.clone());
            let mut parents: Vec<Arc<str>> = held.chain([agent.clone()]).collect();
            let mut met: HashSet<Arc<str>> = parents.iter().cloned().collect();
            while let Some(parent) = parents.pop() {
                for entry in self.children_of(&parent) {
                    found.insert(entry.id, entry.clone());
                    if met.insert(entry.identity.clone()) {
                        parents.push(entry.identity.clone());
                    }
                }
            }
        }
        (self.place, found.into_values().collect())
    }
}

/// How often a call was made, and how often it took how long.
struct Times {
    count: u64,
    nanos: u64,
    steps: Vec<u64>,
}

impl Times {
    fn new() -> Times {
        Times { count: 0, nanos: 0, steps: vec![0; STEPS] }
    }

    /// Calls until the stop flag is set.
    fn of(stop: &AtomicBool, mut call: impl FnMut()) -> Times {
        let mut times = Times::new();
        let first = Instant::now();
        let mut before = first;
        while !stop.load(Ordering::SeqCst) {
            call();
            let after = Instant::now();
            let nanos = (after - before).as_nanos() as u64;
            times.count += 1;
            times.steps[((nanos / STEP) as usize).min(STEPS - 1)] += 1;
            before = after;
        }
        times.nanos = (before - first).as_nanos() as u64;
        times
    }

    fn merge(&mut self, other: &Times) {
        self.count += other.count;
        self.nanos = self.nanos.max(other.nanos);
        for (sum, count) in self.steps.iter_mut().zip(&other.steps) {
            *sum += count;
        }
    }

    /// Returns the nanoseconds within which the given number of a thousand ended.
    fn quantile(&self, of_thousand: u64) -> u64 {
        let mut seen = 0;
        for (step, count) in self.steps.iter().enumerate() {
            seen += count;
            if seen >= self.count * of_thousand / 1000 {
                return (step as u64 + 1) * STEP;
            }
        }
        STEP * STEPS as u64
    }

    fn tell(&self, name: &str) {
        let [half, most, nearly_all] = [500, 990, 999].map(|part| self.quantile(part));
        println!("{name} {} {} {half} {most} {nearly_all}", self.count, self.nanos / 1000);
    }
}

fn agent_id(number: u64) -> Arc<str> {
    format!("spiffe://{OWN}/spire/agent/n{number}").into()
}

fn selectors(number: u64) -> BTreeSet<Arc<str>> {
    [format!("unix:uid:{number}").into()].into()
}

fn entry(agent: u64, number: u64) -> Entry {
    Entry {
        id: Id::from(agent) << 64 | Id::from(number),
        parent: agent_id(agent),
        identity: format!("spiffe://{OWN}/service/{number}").into(),
        selectors: selectors(number),
    }
}

fn filled(agents: u64) -> Book {
    let mut book = Book::default();
    for agent in 0..agents {
        book.set_agent(&agent_id(agent), &selectors(agent));
        for number in 0..ENTRIES {
            book.create(entry(agent, number));
        }
    }
    book
}

fn main() {
    let words: Vec<u64> = std::env::args().skip(1).map(|word| word.parse().expect("a number")).collect();
    let [readers, writer, same, millis, agents] = words[..] else { panic!("five numbers are wanted") };
    let book = RwLock::new(filled(agents));
    let stop = AtomicBool::new(false);
    let server: Arc<str> = format!("spiffe://{OWN}/spire/server").into();
    let (mut queries, mut commits) = (Times::new(), Times::new());
    thread::scope(|scope| {
        let (book, stop, server) = (&book, &stop, &server);
        let asking: Vec<_> = (0..readers)
            .map(|reader| {
                let agent = agent_id(if same > 0 { 0 } else { reader * APART });
                scope.spawn(move || {
                    Times::of(stop, || {
                        let (_, entries) = book.read().unwrap().authorised(&agent, server);
                        assert_eq!(std::hint::black_box(entries).len() as u64, ENTRIES);
                    })
                })
            })
            .collect();
        let changing = (writer > 0).then(|| {
            let (agent, selectors) = (agent_id(agents), selectors(agents));
            let entries = |turn: u64| entry(turn / ENTRIES % agents.max(1), turn % ENTRIES);
            let mut turn = 0;
            scope.spawn(move || {
                Times::of(stop, || match writer {
                    1 => book.write().unwrap().set_agent(&agent, &selectors),
                    _ => {
                        let entry = entries(turn);
                        turn += 1;
                        book.write().unwrap().update(entry);
                    }
                })
            })
        });
        thread::sleep(Duration::from_millis(millis));
        stop.store(true, Ordering::SeqCst);
        asking.into_iter().for_each(|thread| queries.merge(&thread.join().unwrap()));
        changing.into_iter().for_each(|thread| commits.merge(&thread.join().unwrap()));
    });
    queries.tell("queries");
    commits.tell("commits");
}
