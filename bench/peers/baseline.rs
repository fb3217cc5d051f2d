//! An ordinary, unverified Rust program that answers the same request lines as `regd plain`: the peer of `bench/plain`. Its book is
//! sorted vectors of rows, which it scans. It reads any JSON text and writes the same bytes (plain_lines.rs). It knows the operations that
//! the bench sends: agents are set, and entries are created, updated, deleted, shown, listed by pages, and queried for an agent.
//!
//!     rustc --edition 2021 -O bench/peers/baseline.rs && ./baseline plain --domain ex.org < requests > replies

mod plain_lines;

use plain_lines::{Agent, Entry, Fault, Id, Op, are_queries, domain_fault, request_of, write_answer, write_refusal};
use std::io::{self, BufRead, BufReader, BufWriter, Write};
use std::process::ExitCode;
use std::rc::Rc;

type Reply = plain_lines::Reply<Rc<Entry>, Rc<Agent>>;
type Answer = plain_lines::Answer<Rc<Entry>, Rc<Agent>>;

#[derive(Clone, Default)]
struct Book {
    entries: Vec<Rc<Entry>>,
    agents: Vec<Rc<Agent>>,
}

impl Book {
    fn set_agent(&mut self, agent: Agent) -> Reply {
        let agent = Rc::new(agent);
        match self.agents.iter().position(|other| other.id >= agent.id) {
            Some(at) if self.agents[at].id == agent.id => self.agents[at] = agent.clone(),
            Some(at) => self.agents.insert(at, agent.clone()),
            None => self.agents.push(agent.clone()),
        }
        Reply::Agent(agent)
    }

    fn find(&self, id: u128) -> Option<usize> {
        self.entries.iter().position(|other| other.id == id)
    }

    fn similar(&self, entry: &Entry) -> Option<Fault> {
        let other = self.entries.iter().find(|other| {
            other.parent == entry.parent
                && other.identity == entry.identity
                && other.selectors == entry.selectors
                && other.id != entry.id
        })?;
        Some(("O2", Some(other.id)))
    }

    fn create(&mut self, entry: Entry) -> Result<Reply, Fault> {
        if self.find(entry.id).is_some() {
            return Err(("O1", None));
        }
        if let Some(refused) = self.similar(&entry) {
            return Err(refused);
        }
        let at = self
            .entries
            .iter()
            .position(|other| other.id > entry.id)
            .unwrap_or(self.entries.len());
        let entry = Rc::new(entry);
        self.entries.insert(at, entry.clone());
        Ok(Reply::Entry(Some(entry)))
    }

    fn update(&mut self, entry: Entry) -> Result<Reply, Fault> {
        let at = self.find(entry.id).ok_or(("O3", None))?;
        if let Some(refused) = self.similar(&entry) {
            return Err(refused);
        }
        let revision = self.entries[at].revision + 1;
        let entry = Rc::new(Entry { revision, ..entry });
        self.entries[at] = entry.clone();
        Ok(Reply::Entry(Some(entry)))
    }

    fn delete(&mut self, id: u128) -> Result<Reply, Fault> {
        let at = self.find(id).ok_or(("O3", None))?;
        Ok(Reply::Entry(Some(self.entries.remove(at))))
    }

    fn show(&self, id: u128) -> Reply {
        Reply::Entry(self.find(id).map(|at| self.entries[at].clone()))
    }

    fn page(&self, size: usize, from: Option<u128>) -> Reply {
        let mut rest = self.entries.iter().filter(|entry| !from.is_some_and(|id| entry.id <= id));
        let listed: Vec<Rc<Entry>> = rest.by_ref().take(size).cloned().collect();
        let more = rest.next().is_some();
        let next = listed.last().filter(|_| more).map(|entry| entry.id);
        Reply::Page(listed, next)
    }

    fn authorised(&self, agent: &Id) -> Result<Reply, Fault> {
        if !self.agents.iter().any(|other| other.id == *agent) {
            return Err(("O7", None));
        }
        let entries = self
            .entries
            .iter()
            .filter(|entry| entry.parent == *agent)
            .cloned()
            .collect();
        Ok(Reply::Entries(entries))
    }

    fn run(&mut self, ops: Vec<Op>) -> Answer {
        let mut replies = Vec::with_capacity(ops.len());
        for (index, op) in ops.into_iter().enumerate() {
            let reply = match op {
                Op::SetAgent { agent, selectors } => Ok(self.set_agent(Agent {
                    id: agent,
                    selectors,
                })),
                Op::Create(entry) => self.create(entry),
                Op::Update(entry) => self.update(entry),
                Op::Delete { id } => self.delete(id),
                Op::Show { id } => Ok(self.show(id)),
                Op::Page { size, from } => Ok(self.page(size, from)),
                Op::Authorised { agent } => self.authorised(&agent),
            };
            match reply {
                Ok(reply) => replies.push(reply),
                Err((code, detail)) => {
                    return Answer::Refused {
                        code,
                        op: index,
                        detail,
                    }
                }
            }
        }
        Answer::Replies(replies)
    }
}
struct Program {
    domain: String,
    book: Book,
    place: u64,
    calls: u64,
}

impl Program {
    fn answer(&mut self, out: &mut impl Write, ops: Vec<Op>) -> io::Result<()> {
        self.calls += 1;
        let is_query = are_queries(&ops);
        // a batch is all or nothing
        let (answer, changed) = if is_query {
            (self.book.run(ops), None)
        } else {
            let mut book = self.book.clone();
            (book.run(ops), Some(book))
        };
        if let (Answer::Replies(_), Some(book)) = (&answer, changed) {
            self.book = book;
            self.place += 1;
        }
        write_answer(out, self.calls, self.place, &answer, is_query)
    }

    fn run(&mut self) -> io::Result<()> {
        let mut input = BufReader::with_capacity(1 << 16, io::stdin().lock());
        let mut out = BufWriter::with_capacity(1 << 16, io::stdout().lock());
        let mut line = Vec::new();
        for number in 1.. {
            if input.buffer().is_empty() {
                out.flush()?;
            }
            line.clear();
            if input.read_until(b'\n', &mut line)? == 0 {
                break;
            }
            match request_of(&self.domain, &line) {
                Ok(ops) => self.answer(&mut out, ops)?,
                Err(refusal) => write_refusal(&mut out, &refusal, number)?,
            }
        }
        out.flush()
    }
}

fn main() -> ExitCode {
    let words: Vec<String> = std::env::args().skip(1).collect();
    let [program, option, domain] = words.as_slice() else {
        eprintln!("usage: baseline plain --domain D");
        return ExitCode::from(2);
    };
    if program != "plain" || option != "--domain" {
        eprintln!("usage: baseline plain --domain D");
        return ExitCode::from(2);
    }
    if let Some(code) = domain_fault(domain) {
        eprintln!("regd: domain {code}");
        return ExitCode::from(2);
    }
    let mut program = Program {
        domain: domain.clone(),
        book: Book::default(),
        place: 0,
        calls: 0,
    };
    match program.run() {
        Ok(()) => ExitCode::SUCCESS,
        Err(_) => ExitCode::FAILURE,
    }
}
