//! An ordinary, unverified Rust program that answers changes over TCP as `regd serve` does: the peer of `bench/changes`.
//!
//!     rustc --edition 2021 -O bench/peers/plain_server.rs
//!     ./plain_server serve --domain ex.org --listen 127.0.0.1:0 --workers 4 --connections 9
//!
//! It has the command line and the lines of `regd serve` (plain_lines.rs) and knows `create` with an id, `update`, `delete`, `show` and
//! `set_agent`, without domains, expiries and tokens. A version of its book is persistent: rows are in trees of sorted pages, which
//! versions share. A batch of changes runs under a lock, on the newest version, and so has no conflicts. The last 64 versions are
//! published, and the replies of the last 4,096 batches are kept. A query takes no lock but the one of the published pointer. The
//! program checks no limit of the book.

mod plain_lines;

use plain_lines::{Agent, Entry, Fault, Op, are_queries, request_of, write_answer, write_refusal};
use std::cmp::Ordering;
use std::collections::VecDeque;
use std::io::{self, BufRead, BufReader, Write};
use std::net::{TcpListener, TcpStream};
use std::process::ExitCode;
use std::sync::mpsc::{Receiver, Sender, channel};
use std::sync::{Arc, Mutex, RwLock};
use std::{mem, thread};

const MOST_PARTS: usize = 32;
const MOST_VERSIONS: usize = 64;
const MOST_BATCHES: usize = 4096;

type Reply = plain_lines::Reply<Arc<Entry>, Arc<Agent>>;
type Answer = plain_lines::Answer<Arc<Entry>, Arc<Agent>>;

// ---- ordered rows whose old versions stay

/// A pointer to a row, in the order of one index.
trait Row: Clone {
    fn order(&self, other: &Self) -> Ordering;
}

/// Rows in order, or pages in order, each with a row: none of its rows is above that, and all rows of later pages are. The last
/// page's row isn't looked at.
#[derive(Clone)]
enum Page<R> {
    Rows(Vec<R>),
    Pages(Vec<(R, Arc<Page<R>>)>),
}

/// The place of the first of these pages that may have a row which isn't below what is sought.
fn place<R>(pages: &[(R, Arc<Page<R>>)], order: impl Fn(&R) -> Ordering) -> usize {
    pages[..pages.len() - 1].partition_point(|(last, _)| order(last).is_lt())
}

/// The upper half of what has become too long.
fn upper_half<T>(parts: &mut Vec<T>) -> Option<Vec<T>> {
    (parts.len() > MOST_PARTS).then(|| parts.split_off(parts.len() / 2))
}

impl<R: Row> Page<R> {
    /// A page that becomes too long keeps its lower half. The answer is then that half's last row, and the page behind it.
    fn put(&mut self, row: R) -> Option<(R, Page<R>)> {
        match self {
            Page::Rows(rows) => {
                match rows.binary_search_by(|other| other.order(&row)) {
                    Ok(at) => rows[at] = row,
                    Err(at) => rows.insert(at, row),
                }
                let upper = upper_half(rows)?;
                Some((rows.last()?.clone(), Page::Rows(upper)))
            }
            Page::Pages(pages) => {
                let at = place(pages, |other| other.order(&row));
                let (last, page) = &mut pages[at];
                let (middle, next) = Arc::make_mut(page).put(row)?;
                let last = mem::replace(last, middle);
                pages.insert(at + 1, (last, Arc::new(next)));
                let upper = upper_half(pages)?;
                Some((pages.last()?.0.clone(), Page::Pages(upper)))
            }
        }
    }

    /// Answers whether nothing is left.
    fn remove(&mut self, row: &R) -> bool {
        match self {
            Page::Rows(rows) => {
                if let Ok(at) = rows.binary_search_by(|other| other.order(row)) {
                    rows.remove(at);
                }
                rows.is_empty()
            }
            Page::Pages(pages) => {
                let at = place(pages, |other| other.order(row));
                if Arc::make_mut(&mut pages[at].1).remove(row) {
                    pages.remove(at);
                }
                pages.is_empty()
            }
        }
    }

    /// Returns the first row that is neither below nor above what is sought, and passes.
    fn find(&self, order: &impl Fn(&R) -> Ordering, passes: &impl Fn(&R) -> bool) -> Option<&R> {
        match self {
            Page::Rows(rows) => {
                let first = rows.partition_point(|row| order(row).is_lt());
                rows[first..].iter().take_while(|row| order(row).is_eq()).find(|row| passes(row))
            }
            Page::Pages(pages) => {
                for (last, page) in &pages[place(pages, order)..] {
                    let found = page.find(order, passes);
                    if found.is_some() || order(last).is_gt() {
                        return found;
                    }
                }
                None
            }
        }
    }
}

/// Rows of one index. A clone shares all pages; a change copies the pages on the way to its row that are shared.
#[derive(Clone)]
struct Shelf<R> {
    root: Arc<Page<R>>,
}

impl<R: Row> Shelf<R> {
    fn new() -> Self {
        Shelf { root: Arc::new(Page::Rows(Vec::new())) }
    }

    fn put(&mut self, row: R) {
        let last = row.clone();
        if let Some((middle, next)) = Arc::make_mut(&mut self.root).put(row) {
            let pages = vec![(middle, self.root.clone()), (last, Arc::new(next))];
            self.root = Arc::new(Page::Pages(pages));
        }
    }

    fn remove(&mut self, row: &R) {
        if Arc::make_mut(&mut self.root).remove(row) {
            *self = Shelf::new();
        }
    }

    fn find(&self, order: impl Fn(&R) -> Ordering, passes: impl Fn(&R) -> bool) -> Option<&R> {
        self.root.find(&order, &passes)
    }
}

// ---- versions of the book

#[derive(Clone)]
struct ById(Arc<Entry>);

impl Row for ById {
    fn order(&self, other: &Self) -> Ordering {
        self.0.id.cmp(&other.0.id)
    }
}

#[derive(Clone)]
struct ByGroup(Arc<Entry>);

fn in_groups(one: &Entry, other: &Entry) -> Ordering {
    one.parent.cmp(&other.parent).then_with(|| one.identity.cmp(&other.identity))
}

impl Row for ByGroup {
    fn order(&self, other: &Self) -> Ordering {
        in_groups(&self.0, &other.0).then_with(|| self.0.id.cmp(&other.0.id))
    }
}

#[derive(Clone)]
struct ByName(Arc<Agent>);

impl Row for ByName {
    fn order(&self, other: &Self) -> Ordering {
        self.0.id.cmp(&other.0.id)
    }
}

#[derive(Clone)]
struct Version {
    place: u64,
    entries: Shelf<ById>,
    groups: Shelf<ByGroup>,
    agents: Shelf<ByName>,
}

impl Version {
    fn entry(&self, id: u128) -> Option<&Arc<Entry>> {
        self.entries.find(|row| row.0.id.cmp(&id), |_| true).map(|row| &row.0)
    }

    fn similar(&self, entry: &Entry) -> Result<(), Fault> {
        let is_similar = |row: &ByGroup| row.0.id != entry.id && row.0.selectors == entry.selectors;
        match self.groups.find(|row| in_groups(&row.0, entry), is_similar) {
            Some(row) => Err(("O2", Some(row.0.id))),
            None => Ok(()),
        }
    }

    fn put(&mut self, entry: Entry) -> Reply {
        let entry = Arc::new(entry);
        self.entries.put(ById(entry.clone()));
        self.groups.put(ByGroup(entry.clone()));
        Reply::Entry(Some(entry))
    }

    fn create(&mut self, entry: Entry) -> Result<Reply, Fault> {
        if self.entry(entry.id).is_some() {
            return Err(("O1", None));
        }
        self.similar(&entry)?;
        Ok(self.put(entry))
    }

    fn update(&mut self, entry: Entry) -> Result<Reply, Fault> {
        let before = self.entry(entry.id).ok_or(("O3", None))?.clone();
        self.similar(&entry)?;
        if in_groups(&before, &entry).is_ne() {
            self.groups.remove(&ByGroup(before.clone()));
        }
        let revision = before.revision + 1;
        Ok(self.put(Entry { revision, ..entry }))
    }

    fn delete(&mut self, id: u128) -> Result<Reply, Fault> {
        let entry = self.entry(id).ok_or(("O3", None))?.clone();
        self.entries.remove(&ById(entry.clone()));
        self.groups.remove(&ByGroup(entry.clone()));
        Ok(Reply::Entry(Some(entry)))
    }

    fn set_agent(&mut self, agent: Agent) -> Reply {
        let agent = Arc::new(agent);
        self.agents.put(ByName(agent.clone()));
        Reply::Agent(agent)
    }

    fn run(&mut self, op: Op) -> Result<Reply, Fault> {
        match op {
            Op::SetAgent { agent: id, selectors } => Ok(self.set_agent(Agent { id, selectors })),
            Op::Create(entry) => self.create(entry),
            Op::Update(entry) => self.update(entry),
            Op::Delete { id } => self.delete(id),
            Op::Show { id } => Ok(Reply::Entry(self.entry(id).cloned())),
            Op::Page { .. } | Op::Authorised { .. } => unimplemented!("pages, and the entries of an agent"),
        }
    }

    fn run_all(&mut self, ops: Vec<Op>) -> Answer {
        let mut replies = Vec::with_capacity(ops.len());
        for (index, op) in ops.into_iter().enumerate() {
            match self.run(op) {
                Ok(reply) => replies.push(reply),
                Err((code, detail)) => return Answer::Refused { code, op: index, detail },
            }
        }
        Answer::Replies(replies)
    }
}

// ---- what the threads share

/// The last versions, the newest at the end. There is always one.
type Window = VecDeque<Arc<Version>>;

/// Returns the newest version, to be changed.
fn newest(window: &Window) -> Version {
    Version::clone(window.back().expect("a version"))
}

/// The published window, and the replies of the last batches, whose lock a batch of changes has.
struct Store {
    window: RwLock<Arc<Window>>,
    journal: Mutex<VecDeque<Arc<Answer>>>,
}

impl Store {
    fn new() -> Store {
        let (entries, groups, agents) = (Shelf::new(), Shelf::new(), Shelf::new());
        let first = Version { place: 0, entries, groups, agents };
        Store {
            window: RwLock::new(Arc::new(VecDeque::from([Arc::new(first)]))),
            journal: Mutex::new(VecDeque::with_capacity(MOST_BATCHES)),
        }
    }

    fn published(&self) -> Arc<Window> {
        self.window.read().unwrap().clone()
    }

    /// The commit number, and the answer.
    fn ask(&self, ops: Vec<Op>) -> (u64, Arc<Answer>) {
        let mut version = newest(&self.published());
        (version.place, Arc::new(version.run_all(ops)))
    }

    /// The same for a batch of changes, which is committed unless it is refused.
    fn change(&self, ops: Vec<Op>) -> (u64, Arc<Answer>) {
        let mut journal = self.journal.lock().unwrap();
        let before = self.published();
        let mut version = newest(&before);
        let place = version.place;
        let answer = Arc::new(version.run_all(ops));
        if matches!(*answer, Answer::Refused { .. }) {
            return (place, answer);
        }
        version.place = place + 1;
        let kept = before.len().saturating_sub(MOST_VERSIONS - 1);
        let mut window = Window::with_capacity(MOST_VERSIONS);
        window.extend(before.iter().skip(kept).cloned());
        window.push_back(Arc::new(version));
        let oldest = (journal.len() == MOST_BATCHES).then(|| journal.pop_front());
        journal.push_back(answer.clone());
        let replaced = mem::replace(&mut *self.window.write().unwrap(), Arc::new(window));
        drop(journal);
        // what is freed here is freed without the lock
        drop((before, replaced, oldest));
        (place + 1, answer)
    }
}

// ---- connections

/// Answers the lines of a connection. The replies are out before each read that may wait.
fn session(store: &Store, domain: &str, calls: &mut u64, stream: TcpStream) -> io::Result<()> {
    stream.set_nodelay(true)?;
    let mut input = BufReader::with_capacity(1 << 16, stream.try_clone()?);
    let mut output = stream;
    let (mut line, mut out) = (Vec::new(), Vec::new());
    for number in 1.. {
        if !input.buffer().contains(&b'\n') {
            output.write_all(&out)?;
            out.clear();
        }
        line.clear();
        if input.read_until(b'\n', &mut line)? == 0 {
            break;
        }
        match request_of(domain, &line) {
            Ok(ops) => {
                *calls += 1;
                let is_query = are_queries(&ops);
                let (place, answer) = if is_query { store.ask(ops) } else { store.change(ops) };
                write_answer(&mut out, *calls, place, &answer, is_query)?;
            }
            Err(refusal) => write_refusal(&mut out, &refusal, number)?,
        }
    }
    output.write_all(&out)
}

/// Serves connections, one after another, and counts the calls of all of them.
fn work(store: &Store, domain: &str, streams: Receiver<TcpStream>) {
    let mut calls = 0;
    for stream in streams {
        let _ = session(store, domain, &mut calls, stream);
    }
}

fn serve(domain: &str, listen: &str, workers: usize, connections: usize) -> io::Result<()> {
    let listener = TcpListener::bind(listen)?;
    println!("{{\"listening\":\"{}\"}}", listener.local_addr()?);
    let store = Store::new();
    thread::scope(|scope| {
        let store = &store;
        let start = |_| {
            let (sender, receiver) = channel();
            scope.spawn(move || work(store, domain, receiver));
            sender
        };
        let queues: Vec<Sender<TcpStream>> = (0..workers).map(start).collect();
        for (number, stream) in listener.incoming().take(connections).enumerate() {
            let _ = queues[number % workers].send(stream?);
        }
        Ok(())
    })
}

fn main() -> ExitCode {
    let words: Vec<String> = std::env::args().skip(1).collect();
    let words: Vec<&str> = words.iter().map(String::as_str).collect();
    let ["serve", "--domain", domain, "--listen", listen, "--workers", workers, "--connections", connections] = words[..] else {
        eprintln!("usage: plain_server serve --domain D --listen A --workers N --connections C");
        return ExitCode::from(2);
    };
    let (Ok(workers), Ok(connections)) = (workers.parse(), connections.parse()) else {
        eprintln!("plain_server: --workers and --connections are numbers");
        return ExitCode::from(2);
    };
    match serve(domain, listen, workers, connections) {
        Ok(()) => ExitCode::SUCCESS,
        Err(_) => ExitCode::FAILURE,
    }
}
