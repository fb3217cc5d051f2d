//! The request and reply lines of `regd` for ordinary, unverified Rust programs: baseline.rs and plain_server.rs. It reads any JSON text,
//! knows the keys of the operations that the benches send, and writes the same bytes as `regd`.

// each program uses a part of it
#![allow(dead_code)]

use std::collections::BTreeMap;
use std::io::{self, Write};
use std::ops::Deref;

// ---- JSON

enum Value {
    Null,
    Bool,
    Number(f64),
    Text(String),
    List(Vec<Value>),
    Object(BTreeMap<String, Value>),
}

const MAX_DEPTH: usize = 127;

struct Reader<'a> {
    text: &'a str,
    at: usize,
}

impl<'a> Reader<'a> {
    fn value_of(text: &'a str) -> Option<Value> {
        let mut reader = Reader { text, at: 0 };
        let value = reader.value(MAX_DEPTH)?;
        reader.skip_space();
        (reader.at == text.len()).then_some(value)
    }

    fn peek(&self) -> Option<u8> {
        self.text.as_bytes().get(self.at).copied()
    }

    fn next(&mut self) -> Option<u8> {
        let byte = self.peek()?;
        self.at += 1;
        Some(byte)
    }

    fn skip_space(&mut self) {
        while matches!(self.peek(), Some(b' ' | b'\t' | b'\n' | b'\r')) {
            self.at += 1;
        }
    }

    fn word(&mut self, word: &str, value: Value) -> Option<Value> {
        self.text[self.at..].starts_with(word).then(|| {
            self.at += word.len();
            value
        })
    }

    fn value(&mut self, depth: usize) -> Option<Value> {
        self.skip_space();
        match self.peek()? {
            b'n' => self.word("null", Value::Null),
            b't' => self.word("true", Value::Bool),
            b'f' => self.word("false", Value::Bool),
            b'"' => Some(Value::Text(self.string()?)),
            b'[' => self.list(depth.checked_sub(1)?),
            b'{' => self.object(depth.checked_sub(1)?),
            _ => self.number(),
        }
    }

    fn list(&mut self, depth: usize) -> Option<Value> {
        self.at += 1;
        let mut items = Vec::new();
        self.skip_space();
        if self.peek()? == b']' {
            self.at += 1;
            return Some(Value::List(items));
        }
        loop {
            items.push(self.value(depth)?);
            self.skip_space();
            match self.next()? {
                b',' => {}
                b']' => return Some(Value::List(items)),
                _ => return None,
            }
        }
    }

    fn object(&mut self, depth: usize) -> Option<Value> {
        self.at += 1;
        let mut members = BTreeMap::new();
        self.skip_space();
        if self.peek()? == b'}' {
            self.at += 1;
            return Some(Value::Object(members));
        }
        loop {
            self.skip_space();
            if self.peek()? != b'"' {
                return None;
            }
            let key = self.string()?;
            self.skip_space();
            if self.next()? != b':' {
                return None;
            }
            members.insert(key, self.value(depth)?);
            self.skip_space();
            match self.next()? {
                b',' => {}
                b'}' => return Some(Value::Object(members)),
                _ => return None,
            }
        }
    }

    fn string(&mut self) -> Option<String> {
        self.at += 1;
        let mut text = String::new();
        loop {
            let start = self.at;
            while !matches!(self.peek()?, b'"' | b'\\' | 0..=31) {
                self.at += 1;
            }
            text.push_str(&self.text[start..self.at]);
            match self.next()? {
                b'"' => return Some(text),
                b'\\' => text.push(self.escape()?),
                _ => return None,
            }
        }
    }

    fn escape(&mut self) -> Option<char> {
        Some(match self.next()? {
            b'"' => '"',
            b'\\' => '\\',
            b'/' => '/',
            b'b' => '\u{8}',
            b'f' => '\u{c}',
            b'n' => '\n',
            b'r' => '\r',
            b't' => '\t',
            b'u' => {
                let first = self.four_digits()?;
                if !(0xd800..0xdc00).contains(&first) {
                    return char::from_u32(first);
                }
                if self.next()? != b'\\' || self.next()? != b'u' {
                    return None;
                }
                let second = self.four_digits()?;
                if !(0xdc00..0xe000).contains(&second) {
                    return None;
                }
                char::from_u32(0x10000 + ((first - 0xd800) << 10) + (second - 0xdc00))?
            }
            _ => return None,
        })
    }

    fn four_digits(&mut self) -> Option<u32> {
        let mut number = 0;
        for _ in 0..4 {
            number = number * 16 + char::from(self.next()?).to_digit(16)?;
        }
        Some(number)
    }

    fn digits(&mut self) -> Option<()> {
        let start = self.at;
        while matches!(self.peek(), Some(b'0'..=b'9')) {
            self.at += 1;
        }
        (self.at > start).then_some(())
    }

    fn number(&mut self) -> Option<Value> {
        let start = self.at;
        if self.peek()? == b'-' {
            self.at += 1;
        }
        if self.peek()? == b'0' {
            self.at += 1;
        } else {
            self.digits()?;
        }
        if self.peek() == Some(b'.') {
            self.at += 1;
            self.digits()?;
        }
        if let Some(b'e' | b'E') = self.peek() {
            self.at += 1;
            if let Some(b'+' | b'-') = self.peek() {
                self.at += 1;
            }
            self.digits()?;
        }
        let number: f64 = self.text[start..self.at].parse().ok()?;
        number.is_finite().then_some(Value::Number(number))
    }
}

fn write_text(out: &mut impl Write, text: &str) -> io::Result<()> {
    out.write_all(b"\"")?;
    let bytes = text.as_bytes();
    let mut start = 0;
    for (at, byte) in bytes.iter().enumerate() {
        if *byte >= 32 && *byte != b'"' && *byte != b'\\' {
            continue;
        }
        out.write_all(&bytes[start..at])?;
        start = at + 1;
        match byte {
            b'"' => out.write_all(b"\\\"")?,
            b'\\' => out.write_all(b"\\\\")?,
            8 => out.write_all(b"\\b")?,
            9 => out.write_all(b"\\t")?,
            10 => out.write_all(b"\\n")?,
            12 => out.write_all(b"\\f")?,
            13 => out.write_all(b"\\r")?,
            _ => write!(out, "\\u{byte:04x}")?,
        }
    }
    out.write_all(&bytes[start..])?;
    out.write_all(b"\"")
}

// ---- names

pub fn domain_fault(domain: &str) -> Option<&'static str> {
    if domain.is_empty() {
        Some("I3")
    } else if domain.len() > 255 {
        Some("I4")
    } else if !domain
        .bytes()
        .all(|b| matches!(b, b'a'..=b'z' | b'0'..=b'9' | b'.' | b'-' | b'_'))
    {
        Some("I5")
    } else {
        None
    }
}

fn segment_fault(segment: &str) -> Option<&'static str> {
    if segment.is_empty() {
        Some("I6")
    } else if segment == "." || segment == ".." {
        Some("I7")
    } else if !segment
        .bytes()
        .all(|b| b.is_ascii_alphanumeric() || matches!(b, b'.' | b'-' | b'_'))
    {
        Some("I8")
    } else {
        None
    }
}

fn id_fault(text: &str) -> Option<&'static str> {
    if text.len() > 2048 {
        return Some("I1");
    }
    let Some(rest) = text.strip_prefix("spiffe://") else {
        return Some("I2");
    };
    let mut parts = rest.split('/');
    let domain = parts.next().unwrap_or("");
    domain_fault(domain).or_else(|| parts.find_map(segment_fault))
}

#[derive(Clone, PartialEq, Eq, PartialOrd, Ord)]
pub struct Id {
    text: String,
    path_at: usize,
}

impl Id {
    fn parse(text: &str) -> Result<Id, &'static str> {
        if let Some(code) = id_fault(text) {
            return Err(code);
        }
        let path_at = text[9..].find('/').map_or(text.len(), |at| at + 9);
        Ok(Id {
            text: text.to_owned(),
            path_at,
        })
    }

    fn domain(&self) -> &str {
        &self.text[9..self.path_at]
    }

    fn path(&self) -> &str {
        &self.text[self.path_at..]
    }
}

#[derive(Clone, PartialEq, Eq)]
pub struct Selector {
    text: String,
    colon: usize,
}

impl Selector {
    fn parse(text: &str) -> Result<Selector, &'static str> {
        if text.len() > 512 {
            return Err("S1");
        }
        let colon = text.find(':').ok_or("S2")?;
        if colon == 0 {
            return Err("S3");
        }
        if colon + 1 == text.len() {
            return Err("S4");
        }
        Ok(Selector {
            text: text.to_owned(),
            colon,
        })
    }

    fn key(&self) -> (&str, &str) {
        (&self.text[..self.colon], &self.text[self.colon + 1..])
    }
}

fn set_of(mut selectors: Vec<Selector>) -> Vec<Selector> {
    selectors.sort_by(|a, b| a.key().cmp(&b.key()));
    selectors.dedup();
    selectors
}

fn uuid_of(text: &str) -> Option<u128> {
    let hyphenated = |text: &str| {
        let bytes = text.as_bytes();
        let marks = bytes.len() == 36 && [8, 13, 18, 23].iter().all(|at| bytes[*at] == b'-');
        marks.then(|| text.replacen('-', "", 4))
    };
    let digits = match text.len() {
        32 => Some(text.to_owned()),
        36 => hyphenated(text),
        38 => text
            .strip_prefix('{')
            .and_then(|t| t.strip_suffix('}'))
            .and_then(hyphenated),
        45 => {
            let (scheme, rest) = text.split_at_checked(9)?;
            scheme
                .eq_ignore_ascii_case("urn:uuid:")
                .then(|| hyphenated(rest))?
        }
        _ => None,
    }?;
    digits
        .bytes()
        .all(|b| b.is_ascii_hexdigit())
        .then(|| u128::from_str_radix(&digits, 16).ok())?
}

// ---- requests

pub enum Op {
    SetAgent {
        agent: Id,
        selectors: Vec<Selector>,
    },
    Create(Entry),
    Update(Entry),
    Delete {
        id: u128,
    },
    Show {
        id: u128,
    },
    Page {
        size: usize,
        from: Option<u128>,
    },
    Authorised {
        agent: Id,
    },
}

/// Is each operation a query?
pub fn are_queries(ops: &[Op]) -> bool {
    ops.iter().all(|op| matches!(op, Op::Authorised { .. } | Op::Show { .. } | Op::Page { .. }))
}

pub struct Entry {
    pub id: u128,
    pub parent: Id,
    pub identity: Id,
    pub selectors: Vec<Selector>,
    pub hint: String,
    pub revision: u64,
}

pub struct Agent {
    pub id: Id,
    pub selectors: Vec<Selector>,
}

pub struct Refusal {
    code: &'static str,
    field: Option<String>,
    op: Option<usize>,
}

fn field_refusal(code: &'static str, field: &str) -> Refusal {
    Refusal {
        code,
        field: Some(field.to_owned()),
        op: None,
    }
}

type Members = BTreeMap<String, Value>;

fn text_of<'a>(members: &'a Members, key: &str) -> Result<&'a str, Refusal> {
    match members.get(key) {
        Some(Value::Text(text)) => Ok(text),
        _ => Err(field_refusal("L5", key)),
    }
}

fn id_of(members: &Members, key: &str) -> Result<Id, Refusal> {
    Id::parse(text_of(members, key)?).map_err(|code| field_refusal(code, key))
}

fn selectors_of(members: &Members) -> Result<Vec<Selector>, Refusal> {
    let Some(Value::List(items)) = members.get("selectors") else {
        return Err(field_refusal("L5", "selectors"));
    };
    let selectors: Result<Vec<Selector>, &'static str> = items
        .iter()
        .map(|item| match item {
            Value::Text(text) => Selector::parse(text),
            _ => Err("L5"),
        })
        .collect();
    selectors
        .map(set_of)
        .map_err(|code| field_refusal(code, "selectors"))
}

fn uuid_under(members: &Members, key: &str) -> Result<u128, Refusal> {
    uuid_of(text_of(members, key)?).ok_or_else(|| field_refusal("U1", key))
}

fn size_of(members: &Members) -> Result<usize, Refusal> {
    match members.get("size") {
        Some(Value::Number(size)) if size.fract() == 0.0 && *size >= 0.0 => Ok(*size as usize),
        _ => Err(field_refusal("L5", "size")),
    }
}

/// Checks `tries`, which makes no difference to a program without conflicts.
fn tries_of(members: &Members) -> Result<(), Refusal> {
    match members.get("tries") {
        None | Some(Value::Null) => Ok(()),
        Some(Value::Number(tries)) if tries.fract() == 0.0 && (1.0..=16.0).contains(tries) => Ok(()),
        Some(_) => Err(field_refusal("L5", "tries")),
    }
}

fn entry_of(members: &Members) -> Result<Entry, Refusal> {
    let id = uuid_under(members, "id")?;
    let parent = id_of(members, "parent")?;
    let identity = id_of(members, "identity")?;
    let selectors = selectors_of(members)?;
    let hint = match members.get("hint") {
        None | Some(Value::Null) => String::new(),
        Some(_) => text_of(members, "hint")?.to_owned(),
    };
    no_others(members, &["op", "id", "parent", "identity", "selectors", "hint"])?;
    Ok(Entry {
        id,
        parent,
        identity,
        selectors,
        hint,
        revision: 0,
    })
}

fn no_others(members: &Members, keys: &[&str]) -> Result<(), Refusal> {
    match members.keys().find(|key| !keys.contains(&key.as_str())) {
        Some(key) => Err(field_refusal("L5", key)),
        None => Ok(()),
    }
}

fn op_of(value: &Value) -> Result<Op, Refusal> {
    let Value::Object(members) = value else {
        return Err(field_refusal("L5", "ops"));
    };
    match text_of(members, "op")? {
        "set_agent" => {
            let agent = id_of(members, "agent")?;
            let selectors = selectors_of(members)?;
            no_others(members, &["op", "agent", "selectors"])?;
            Ok(Op::SetAgent { agent, selectors })
        }
        "create" => Ok(Op::Create(entry_of(members)?)),
        "update" => Ok(Op::Update(entry_of(members)?)),
        "delete" | "show" => {
            let id = uuid_under(members, "id")?;
            no_others(members, &["op", "id"])?;
            Ok(match text_of(members, "op")? {
                "delete" => Op::Delete { id },
                _ => Op::Show { id },
            })
        }
        "page" => {
            let size = size_of(members)?;
            let from = match members.get("from") {
                Some(_) => Some(uuid_under(members, "from")?),
                None => None,
            };
            no_others(members, &["op", "size", "from"])?;
            Ok(Op::Page { size, from })
        }
        "authorised" => {
            let agent = id_of(members, "agent")?;
            no_others(members, &["op", "agent"])?;
            Ok(Op::Authorised { agent })
        }
        _ => Err(field_refusal("L5", "op")),
    }
}

fn op_fault(domain: &str, op: &Op) -> Option<&'static str> {
    let agent_fault = |agent: &Id, count: usize| {
        if agent.domain() != domain {
            Some("B3")
        } else if count > 64 {
            Some("B6")
        } else if !agent.path().starts_with("/spire/agent/") {
            Some("B10")
        } else {
            None
        }
    };
    match op {
        Op::SetAgent { agent, selectors } => agent_fault(agent, selectors.len()),
        Op::Authorised { agent } => agent_fault(agent, 0),
        Op::Create(entry) | Op::Update(entry) => {
            if entry.parent.domain() != domain || entry.identity.domain() != domain {
                Some("B3")
            } else if entry.parent.path().is_empty() || entry.identity.path().is_empty() {
                Some("B4")
            } else if entry.identity.path() == "/spire/server" {
                Some("B5")
            } else if entry.selectors.is_empty() || entry.selectors.len() > 16 {
                Some("B6")
            } else {
                None
            }
        }
        Op::Page { size, .. } if *size == 0 || *size > 500 => Some("B9"),
        Op::Delete { .. } | Op::Show { .. } | Op::Page { .. } => None,
    }
}

const MAX_LINE: usize = 1_048_576;

fn refused(code: &'static str) -> Refusal {
    Refusal {
        code,
        field: None,
        op: None,
    }
}

pub fn request_of(domain: &str, line: &[u8]) -> Result<Vec<Op>, Refusal> {
    let body = line.strip_suffix(b"\n");
    if body.unwrap_or(line).len() > MAX_LINE {
        return Err(refused("L1"));
    }
    let body = body.ok_or_else(|| refused("L3"))?;
    let value = std::str::from_utf8(body)
        .ok()
        .and_then(Reader::value_of)
        .ok_or_else(|| refused("L2"))?;
    let Value::Object(members) = &value else {
        return Err(refused("L4"));
    };
    let Some(Value::List(items)) = members.get("ops") else {
        return Err(field_refusal("L5", "ops"));
    };
    tries_of(members)?;
    no_others(members, &["ops", "tries"])?;
    let mut ops = Vec::with_capacity(items.len());
    for (index, item) in items.iter().enumerate() {
        ops.push(op_of(item).map_err(|refusal| Refusal {
            op: Some(index),
            ..refusal
        })?);
    }
    if ops.is_empty() {
        return Err(refused("B1"));
    }
    if ops.len() > 64 {
        return Err(refused("B2"));
    }
    for (index, op) in ops.iter().enumerate() {
        if let Some(code) = op_fault(domain, op) {
            return Err(Refusal {
                code,
                field: None,
                op: Some(index),
            });
        }
    }
    Ok(ops)
}

// ---- replies

fn write_list<T, W: Write>(
    out: &mut W,
    items: &[T],
    write_item: impl Fn(&mut W, &T) -> io::Result<()>,
) -> io::Result<()> {
    out.write_all(b"[")?;
    for (index, item) in items.iter().enumerate() {
        if index > 0 {
            out.write_all(b",")?;
        }
        write_item(out, item)?;
    }
    out.write_all(b"]")
}

fn write_selectors<W: Write>(out: &mut W, selectors: &[Selector]) -> io::Result<()> {
    write_list(out, selectors, |out, selector| {
        write_text(out, &selector.text)
    })
}

fn write_uuid(out: &mut impl Write, id: u128) -> io::Result<()> {
    let [a, b, c, d] = [
        id >> 96,
        id >> 80 & 0xffff,
        id >> 64 & 0xffff,
        id >> 48 & 0xffff,
    ];
    let e = id & 0xffff_ffff_ffff;
    write!(out, "\"{a:08x}-{b:04x}-{c:04x}-{d:04x}-{e:012x}\"")
}

fn write_entry<W: Write>(out: &mut W, entry: &Entry) -> io::Result<()> {
    out.write_all(b"{\"domains\":[],\"expiry\":0,\"hint\":")?;
    write_text(out, &entry.hint)?;
    out.write_all(b",\"id\":")?;
    write_uuid(out, entry.id)?;
    out.write_all(b",\"identity\":")?;
    write_text(out, &entry.identity.text)?;
    out.write_all(b",\"parent\":")?;
    write_text(out, &entry.parent.text)?;
    write!(out, ",\"revision\":{},\"selectors\":", entry.revision)?;
    write_selectors(out, &entry.selectors)?;
    out.write_all(b"}")
}

/// The reply to an operation. `E` and `A` are the program's pointers to an entry and to an agent.
pub enum Reply<E, A> {
    Agent(A),
    Entry(Option<E>),
    Entries(Vec<E>),
    Page(Vec<E>, Option<u128>),
}

/// Why an operation is refused: the code, and the id that it has as detail.
pub type Fault = (&'static str, Option<u128>);

/// The answer to a batch.
pub enum Answer<E, A> {
    Refused {
        code: &'static str,
        op: usize,
        detail: Option<u128>,
    },
    Replies(Vec<Reply<E, A>>),
}

fn write_reply<E, A, W>(out: &mut W, reply: &Reply<E, A>) -> io::Result<()>
where
    E: Deref<Target = Entry>,
    A: Deref<Target = Agent>,
    W: Write,
{
    match reply {
        Reply::Agent(agent) => {
            out.write_all(b"{\"agent\":{\"id\":")?;
            write_text(out, &agent.id.text)?;
            out.write_all(b",\"selectors\":")?;
            write_selectors(out, &agent.selectors)?;
            out.write_all(b"}}")
        }
        Reply::Entry(entry) => {
            out.write_all(b"{\"entry\":")?;
            match entry {
                Some(entry) => write_entry(out, entry)?,
                None => out.write_all(b"null")?,
            }
            out.write_all(b"}")
        }
        Reply::Entries(entries) => {
            out.write_all(b"{\"entries\":")?;
            write_list(out, entries, |out, entry| write_entry(out, entry))?;
            out.write_all(b"}")
        }
        Reply::Page(entries, next) => {
            out.write_all(b"{\"entries\":")?;
            write_list(out, entries, |out, entry| write_entry(out, entry))?;
            out.write_all(b",\"next\":")?;
            match next {
                Some(id) => write_uuid(out, *id)?,
                None => out.write_all(b"null")?,
            }
            out.write_all(b"}")
        }
    }
}

/// Writes the reply line of a call. `place` is the commit number.
pub fn write_answer<E, A>(
    out: &mut impl Write,
    call: u64,
    place: u64,
    answer: &Answer<E, A>,
    is_query: bool,
) -> io::Result<()>
where
    E: Deref<Target = Entry>,
    A: Deref<Target = Agent>,
{
    match answer {
        Answer::Refused { code, op, detail } => {
            write!(out, "{{\"call\":{call},\"code\":\"{code}\"")?;
            if let Some(id) = detail {
                out.write_all(b",\"detail\":")?;
                write_uuid(out, *id)?;
            }
            writeln!(out, ",\"op\":{op},\"place\":{place},\"result\":\"refused\"}}")
        }
        Answer::Replies(replies) => {
            write!(out, "{{\"call\":{call},\"place\":{place},\"replies\":")?;
            write_list(out, replies, |out, reply| write_reply(out, reply))?;
            let result = if is_query { "answered" } else { "committed" };
            writeln!(out, ",\"result\":\"{result}\"}}")
        }
    }
}

pub fn write_refusal(out: &mut impl Write, refusal: &Refusal, line: u64) -> io::Result<()> {
    write!(out, "{{\"code\":\"{}\"", refusal.code)?;
    if let Some(field) = &refusal.field {
        out.write_all(b",\"field\":")?;
        write_text(out, field)?;
    }
    write!(out, ",\"line\":{line}")?;
    if let Some(op) = refusal.op {
        write!(out, ",\"op\":{op}")?;
    }
    out.write_all(b"}\n")
}
