//! An ordinary, unverified Rust program that does what bench/drivers/versions.rattle does: the peer of `bench/versions`.
//!
//! A version has four ordered maps, whose rows are in trees of sorted pages. Versions share rows and pages; a page that no
//! other version shares is changed in place. The command line and the output are those of bench/drivers/versions.rattle, except that
//! it neither checks what is unchanged nor reads agents, bundles and tokens. If the command line is only a number of entries, it commits as
//! bench/drivers/head.rattle does (plain_heads.rs), for `bench/head`.

mod plain_heads;

use std::mem;
use std::sync::Arc;
use std::time::{Duration, Instant};

const IDENTITIES: u64 = 1024;
const EXPIRIES: u64 = 1_000_000;
const MOST_PARTS: usize = 32;

// ---- ordered maps whose old versions stay

/// Rows in order, or pages in order, each with a key: none of its rows is above that, and all rows of later pages are. The
/// last page's key isn't looked at.
#[derive(Clone)]
enum Page<K, V> {
    Rows(Vec<Arc<(K, V)>>),
    Pages(Vec<(K, Arc<Page<K, V>>)>),
}

/// The place of the page, among these, to which a key belongs.
fn place<K: Ord, V>(pages: &[(K, Arc<Page<K, V>>)], key: &K) -> usize {
    pages[..pages.len() - 1].partition_point(|(last, _)| last < key)
}

/// The upper half of what has become too long.
fn upper_half<T>(parts: &mut Vec<T>) -> Option<Vec<T>> {
    (parts.len() > MOST_PARTS).then(|| parts.split_off(parts.len() / 2))
}

impl<K: Ord + Clone, V: Clone> Page<K, V> {
    fn get(&self, key: &K) -> Option<&V> {
        match self {
            Page::Rows(rows) => rows.binary_search_by(|row| row.0.cmp(key)).ok().map(|at| &rows[at].1),
            Page::Pages(pages) => pages[place(pages, key)].1.get(key),
        }
    }

    /// A page that becomes too long keeps its lower half. The answer is then that half's last key, and the page behind it.
    fn put(&mut self, key: K, value: V) -> Option<(K, Page<K, V>)> {
        match self {
            Page::Rows(rows) => {
                let row = Arc::new((key, value));
                match rows.binary_search_by(|other| other.0.cmp(&row.0)) {
                    Ok(at) => rows[at] = row,
                    Err(at) => rows.insert(at, row),
                }
                let upper = upper_half(rows)?;
                Some((rows.last()?.0.clone(), Page::Rows(upper)))
            }
            Page::Pages(pages) => {
                let at = place(pages, &key);
                let (last, page) = &mut pages[at];
                let (middle, next) = Arc::make_mut(page).put(key, value)?;
                let last = mem::replace(last, middle);
                pages.insert(at + 1, (last, Arc::new(next)));
                let upper = upper_half(pages)?;
                Some((pages.last()?.0.clone(), Page::Pages(upper)))
            }
        }
    }

    /// Answers whether nothing is left.
    fn remove(&mut self, key: &K) -> bool {
        match self {
            Page::Rows(rows) => {
                if let Ok(at) = rows.binary_search_by(|row| row.0.cmp(key)) {
                    rows.remove(at);
                }
                rows.is_empty()
            }
            Page::Pages(pages) => {
                let at = place(pages, key);
                if Arc::make_mut(&mut pages[at].1).remove(key) {
                    pages.remove(at);
                }
                pages.is_empty()
            }
        }
    }

    /// Visits the rows from `lo` on and before `hi`, where there are such bounds.
    fn visit<'a>(&'a self, lo: Option<&K>, hi: Option<&K>, to: &mut impl FnMut(&'a V)) {
        match self {
            Page::Rows(rows) => {
                let first = lo.map_or(0, |lo| rows.partition_point(|row| row.0 < *lo));
                let end = hi.map_or(rows.len(), |hi| rows.partition_point(|row| row.0 < *hi));
                rows[first..end].iter().for_each(|row| to(&row.1));
            }
            Page::Pages(pages) => {
                let first = lo.map_or(0, |lo| place(pages, lo));
                let last = hi.map_or(pages.len() - 1, |hi| place(pages, hi));
                for at in first..=last {
                    pages[at].1.visit(lo.filter(|_| at == first), hi.filter(|_| at == last), to);
                }
            }
        }
    }
}

#[derive(Clone)]
struct Shelf<K, V> {
    root: Arc<Page<K, V>>,
}

impl<K: Ord + Clone, V: Clone> Shelf<K, V> {
    fn new() -> Self {
        Shelf {
            root: Arc::new(Page::Rows(Vec::new())),
        }
    }

    fn get(&self, key: &K) -> Option<&V> {
        self.root.get(key)
    }

    fn put(&mut self, key: K, value: V) {
        if let Some((middle, next)) = Arc::make_mut(&mut self.root).put(key, value) {
            let pages = vec![(middle.clone(), self.root.clone()), (middle, Arc::new(next))];
            self.root = Arc::new(Page::Pages(pages));
        }
    }

    fn remove(&mut self, key: &K) {
        if Arc::make_mut(&mut self.root).remove(key) {
            *self = Shelf::new();
        }
    }

    /// Visits the rows from `lo` on and before `hi`.
    fn visit<'a>(&'a self, lo: &K, hi: &K, mut to: impl FnMut(&'a V)) {
        self.root.visit(Some(lo), Some(hi), &mut to);
    }
}

// ---- entries and versions

struct Given {
    id: u128,
    parent: Arc<str>,
    identity: Arc<str>,
    _selectors: Vec<String>,
    domains: Vec<Arc<str>>,
    expiry: u64,
}

#[derive(Clone)]
struct Entry {
    given: Arc<Given>,
    _revision: u64,
}

/// An entry with the number of the version that wrote it.
#[derive(Clone)]
struct Row {
    entry: Entry,
    _number: u64,
}

/// A part of a key: the start before all values, a value, or the end after them all.
#[derive(Clone, PartialEq, Eq, PartialOrd, Ord)]
enum KeyPart<T> {
    Start,
    At(T),
    End,
}

type GroupKey = (KeyPart<Arc<str>>, KeyPart<Arc<str>>, KeyPart<u128>);

#[derive(Clone)]
struct Version {
    number: u64,
    entries: Shelf<u128, Row>,
    groups: Shelf<GroupKey, Row>,
    users: Shelf<(Arc<str>, KeyPart<u128>), Row>,
    expiries: Shelf<(u64, KeyPart<u128>), Row>,
}

impl Version {
    fn empty() -> Self {
        Version {
            number: 0,
            entries: Shelf::new(),
            groups: Shelf::new(),
            users: Shelf::new(),
            expiries: Shelf::new(),
        }
    }

    fn remove(&mut self, id: u128) {
        let Some(row) = self.entries.get(&id) else { return };
        let given = row.entry.given.clone();
        let parent = KeyPart::At(given.parent.clone());
        let identity = KeyPart::At(given.identity.clone());
        self.groups.remove(&(parent, identity, KeyPart::At(id)));
        for domain in &given.domains {
            self.users.remove(&(domain.clone(), KeyPart::At(id)));
        }
        if given.expiry > 0 {
            self.expiries.remove(&(given.expiry, KeyPart::At(id)));
        }
        self.entries.remove(&id);
    }

    fn put(&mut self, entry: &Entry) {
        let row = Row {
            entry: entry.clone(),
            _number: self.number,
        };
        let given = &entry.given;
        self.remove(given.id);
        let parent = KeyPart::At(given.parent.clone());
        let identity = KeyPart::At(given.identity.clone());
        self.groups.put((parent, identity, KeyPart::At(given.id)), row.clone());
        for domain in &given.domains {
            self.users.put((domain.clone(), KeyPart::At(given.id)), row.clone());
        }
        if given.expiry > 0 {
            self.expiries.put((given.expiry, KeyPart::At(given.id)), row.clone());
        }
        self.entries.put(given.id, row);
    }

    fn after(&self, entries: &[Entry]) -> Version {
        let mut next = self.clone();
        next.number += 1;
        for entry in entries {
            next.put(entry);
        }
        next
    }

    fn without(&self, ids: &[u128]) -> Version {
        let mut next = self.clone();
        next.number += 1;
        for id in ids {
            next.remove(*id);
        }
        next
    }
}

/// The entries between two keys, in the order of their ids.
fn in_order<K: Ord + Clone>(index: &Shelf<K, Row>, (lo, hi): &(K, K)) -> Vec<Entry> {
    let mut found = Vec::new();
    index.visit(lo, hi, |row| found.push(row.entry.clone()));
    found.sort_by_key(|entry| entry.given.id);
    found
}

fn group_bounds(parent: Option<&Arc<str>>, identity: Option<&Arc<str>>) -> (GroupKey, GroupKey) {
    let of = |value: Option<&Arc<str>>, other: KeyPart<Arc<str>>| match value {
        Some(value) => KeyPart::At(value.clone()),
        None => other,
    };
    (
        (of(parent, KeyPart::Start), of(identity, KeyPart::Start), KeyPart::Start),
        (of(parent, KeyPart::End), of(identity, KeyPart::End), KeyPart::End),
    )
}

// ---- the job

struct Job {
    entries: u64,
    batch: usize,
    parents: u64,
    times: u64,
    has_domains: bool,
    has_expiries: bool,
    kept: u64,
}

fn scattered(number: u64) -> u64 {
    number.wrapping_mul(0x9e37_79b9_7f4a_7c15)
}

fn id_of(number: u64) -> u128 {
    u128::from(scattered(number)) << 64 | u128::from(number)
}

fn parent_of(job: &Job, number: u64) -> Arc<str> {
    format!("spiffe://ex.org/spire/agent/n{}", number % job.parents).into()
}

fn identity_of(number: u64) -> Arc<str> {
    format!("spiffe://ex.org/service/{}", number % IDENTITIES).into()
}

/// The entry of a number. It owns all its texts, as one does that was read from a line.
fn entry_of(job: &Job, number: u64, revision: u64) -> Entry {
    let given = Given {
        id: id_of(number),
        parent: parent_of(job, number),
        identity: identity_of(number),
        _selectors: vec![format!("unix:uid:{number}")],
        domains: if job.has_domains { vec!["b.org".into()] } else { Vec::new() },
        expiry: if job.has_expiries { 1 + scattered(number) % EXPIRIES } else { 0 },
    };
    Entry {
        given: Arc::new(given),
        _revision: revision,
    }
}

fn entries_of(job: &Job) -> Vec<Entry> {
    (0..job.entries).map(|number| entry_of(job, number, 0)).collect()
}

fn filled(job: &Job, entries: &[Entry]) -> Version {
    let batches = entries.chunks(job.batch.max(1));
    batches.fold(Version::empty(), |version, batch| version.after(batch))
}

/// When something began, by the clock on the wall and by the processor's.
struct Stopwatch {
    wall: Instant,
    processor: Duration,
}

fn started() -> Stopwatch {
    Stopwatch {
        wall: Instant::now(),
        processor: processor_time(),
    }
}

/// Prints what was done since the watch was started.
fn tell(watch: &Stopwatch, name: &str, rows: usize, times: u64) {
    let wall = watch.wall.elapsed().as_micros();
    let processor = processor_time() - watch.processor;
    println!("{name} {rows} {times} {wall} {}", processor.as_micros());
}

fn time_read(version: &Version, name: &str, times: u64, read: impl Fn(&Version) -> Vec<Entry>) {
    let since = started();
    let mut rows = 0;
    for _ in 0..times {
        rows = std::hint::black_box(read(version)).len();
    }
    tell(&since, name, rows, times);
}

fn time_reads(job: &Job, version: &Version) {
    let number = job.entries / 2;
    let (parent, identity) = (parent_of(job, number), identity_of(number));
    let few = job.times * 100;
    time_read(version, "entry", few, |version| {
        version.entries.get(&id_of(number)).map(|row| row.entry.clone()).into_iter().collect()
    });
    let bounds = group_bounds(Some(&parent), Some(&identity));
    time_read(version, "group", few, |version| in_order(&version.groups, &bounds));
    let bounds = group_bounds(Some(&parent), None);
    time_read(version, "children", few, |version| in_order(&version.groups, &bounds));
    let domain: Arc<str> = "b.org".into();
    let bounds = ((domain.clone(), KeyPart::Start), (domain, KeyPart::End));
    time_read(version, "users", job.times, |version| in_order(&version.users, &bounds));
    let bounds = ((1, KeyPart::Start), (1 + EXPIRIES / 2, KeyPart::Start));
    time_read(version, "expiring", job.times, |version| in_order(&version.expiries, &bounds));
    let bounds = group_bounds(None, None);
    time_read(version, "all", job.times, |version| in_order(&version.groups, &bounds));
}

fn measure(job: &Job) {
    let entries = entries_of(job);
    let (most, last) = entries.split_at(entries.len().saturating_sub(job.batch));
    let since = started();
    let before = filled(job, most);
    tell(&since, "fill", most.len(), most.chunks(job.batch.max(1)).count() as u64);
    let since = started();
    let version = before.after(last);
    tell(&since, "last-batch", entries.len(), 1);
    println!("== read");
    time_reads(job, &version);
}

// ---- clock and memory, from the C library

#[repr(C)]
struct TimeSpec {
    seconds: i64,
    nanoseconds: i64,
}

#[repr(C)]
struct MallocInfo {
    arena: usize,
    ordblks: usize,
    smblks: usize,
    hblks: usize,
    hblkhd: usize,
    usmblks: usize,
    fsmblks: usize,
    uordblks: usize,
    fordblks: usize,
    keepcost: usize,
}

const CLOCK_PROCESS_CPUTIME_ID: i32 = 2;

extern "C" {
    fn clock_gettime(clock: i32, told: *mut TimeSpec) -> i32;
    fn mallinfo2() -> MallocInfo;
}

/// The processor's time that this process has used.
fn processor_time() -> Duration {
    let mut told = TimeSpec {
        seconds: 0,
        nanoseconds: 0,
    };
    // SAFETY: the function writes one TimeSpec, as Linux lays it out on 64 bits.
    let failed = unsafe { clock_gettime(CLOCK_PROCESS_CPUTIME_ID, &mut told) };
    assert_eq!(failed, 0);
    Duration::new(told.seconds as u64, told.nanoseconds as u32)
}

/// How many bytes were taken and not given back.
fn bytes_in_use() -> usize {
    // SAFETY: glibc's function has no condition.
    let told = unsafe { mallinfo2() };
    told.uordblks + told.hblkhd
}

// ---- memory

fn made(job: &Job) -> Version {
    filled(job, &entries_of(job))
}

fn weigh(job: &Job) {
    let before = bytes_in_use();
    let version = made(job);
    let one = bytes_in_use() - before;
    let mut kept = Vec::new();
    let mut newest = version.clone();
    for number in 0..job.kept {
        newest = newest.after(&[entry_of(job, number * (job.entries / job.kept), 1)]);
        kept.push(newest.clone());
    }
    println!("bytes {} {one} {}", kept.len(), bytes_in_use() - before);
}

fn run(job: &Job) {
    if job.kept > 0 {
        weigh(job);
    } else {
        measure(job);
    }
}

fn main() {
    let numbers: Vec<u64> = std::env::args().skip(1).map(|word| word.parse().expect("a number")).collect();
    match numbers[..] {
        [entries] => plain_heads::measure(entries),
        [entries, batch, parents, times, plain, kept] => run(&Job {
            entries,
            batch: batch as usize,
            parents,
            times,
            has_domains: plain == 0,
            has_expiries: plain == 0,
            kept,
        }),
        _ => panic!("one number or six are wanted"),
    }
}
