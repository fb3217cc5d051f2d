//! A load generator: sends the requests of a file repeatedly over TCP, on several connections at a time. It speaks the lines of `regd
//! serve` and the protocol of Redis, so that one client measures both. For `bench/serve`.
//!
//!     rustc --edition 2021 -O bench/peers/load.rs && ./load lines|redis HOST:PORT CONNECTIONS DEPTH SECONDS PID < requests
//!
//! A request is a line of the input; for Redis its words are separated by single spaces. Each connection has a thread, which sends
//! DEPTH requests together and then waits for all their replies. After a warm-up of a fifth of a second it measures, and
//! prints a line of numbers: requests, seconds, the latencies at the 50th, the 99th and the 99.9th percentile (nanoseconds from the send
//! of a request to the read that completed its reply), the processor time of the server with that PID and of this program
//! (nanoseconds), bytes of replies, and the number of error replies.

use std::io::{self, BufRead, Read, Write};
use std::net::TcpStream;
use std::process::ExitCode;
use std::sync::Barrier;
use std::sync::atomic::{AtomicBool, AtomicU64, Ordering::Relaxed};
use std::time::{Duration, Instant};
use std::{env, fs, thread};

const WARM_UP: Duration = Duration::from_millis(200);

#[derive(Clone, Copy, PartialEq)]
enum Protocol {
    Lines,
    Redis,
}

// ---- requests and replies

/// The bytes of a request.
fn encoded(protocol: Protocol, line: &str) -> Vec<u8> {
    match protocol {
        Protocol::Lines => format!("{line}\n").into_bytes(),
        Protocol::Redis => {
            let words: Vec<&str> = line.split(' ').collect();
            let mut bytes = format!("*{}\r\n", words.len()).into_bytes();
            for word in words {
                bytes.extend_from_slice(format!("${}\r\n{word}\r\n", word.len()).as_bytes());
            }
            bytes
        }
    }
}

/// The place behind the first LF from `from` on.
fn line_end(bytes: &[u8], from: usize) -> Option<usize> {
    let found = bytes.get(from..)?.iter().position(|byte| *byte == b'\n')?;
    Some(from + found + 1)
}

/// The place behind the reply of Redis that begins at `from`.
fn redis_end(bytes: &[u8], from: usize) -> Option<usize> {
    let end = line_end(bytes, from)?;
    let number = || -> i64 { std::str::from_utf8(&bytes[from + 1..end - 2]).unwrap().parse().unwrap() };
    match bytes[from] {
        b'$' => {
            let length = number();
            let end = if length < 0 { end } else { end + length as usize + 2 };
            (end <= bytes.len()).then_some(end)
        }
        b'*' => {
            let mut end = end;
            for _ in 0..number() {
                end = redis_end(bytes, end)?;
            }
            Some(end)
        }
        _ => Some(end),
    }
}

fn reply_end(protocol: Protocol, bytes: &[u8], from: usize) -> Option<usize> {
    match protocol {
        Protocol::Lines => line_end(bytes, from),
        Protocol::Redis => redis_end(bytes, from),
    }
}

/// Was the request done, and not refused?
fn is_good(protocol: Protocol, reply: &[u8]) -> bool {
    match protocol {
        Protocol::Lines => reply.ends_with(b"\"result\":\"answered\"}\n") || reply.ends_with(b"\"result\":\"committed\"}\n"),
        Protocol::Redis => !reply.starts_with(b"-") && !reply.starts_with(b"$-1"),
    }
}

// ---- one connection

struct Shared {
    protocol: Protocol,
    depth: usize,
    requests: Vec<Vec<u8>>,
    is_measuring: AtomicBool,
    is_over: AtomicBool,
    /// The connections and the one that measures meet here before the first request, and behind the last.
    meeting: Barrier,
}

#[derive(Default)]
struct Counts {
    requests: AtomicU64,
    bytes: AtomicU64,
    bad: AtomicU64,
}

struct Connection<'a> {
    shared: &'a Shared,
    stream: TcpStream,
    next: usize,
    out: Vec<u8>,
    input: Vec<u8>,
    latencies: Vec<u64>,
}

impl Connection<'_> {
    /// Talks until it is over.
    fn talk(&mut self, counts: &Counts) -> io::Result<()> {
        while !self.shared.is_over.load(Relaxed) {
            self.window(counts)?;
        }
        Ok(())
    }

    /// Sends as many requests as the depth says, and takes their replies.
    fn window(&mut self, counts: &Counts) -> io::Result<()> {
        self.out.clear();
        for _ in 0..self.shared.depth {
            self.out.extend_from_slice(&self.shared.requests[self.next]);
            self.next = (self.next + 1) % self.shared.requests.len();
        }
        let start = Instant::now();
        self.stream.write_all(&self.out)?;
        let mut left = self.shared.depth;
        let mut filled = 0;
        let mut begin = 0;
        while left > 0 {
            if filled == self.input.len() {
                self.input.resize(2 * filled, 0);
            }
            match self.stream.read(&mut self.input[filled..])? {
                0 => return Err(io::ErrorKind::UnexpectedEof.into()),
                many => filled += many,
            }
            let taken = self.take(counts, &mut begin, filled, left);
            left -= taken;
            if self.shared.is_measuring.load(Relaxed) {
                let latency = start.elapsed().as_nanos() as u64;
                self.latencies.extend(std::iter::repeat_n(latency, taken));
            }
        }
        Ok(())
    }

    /// Counts the replies that are whole by now.
    fn take(&self, counts: &Counts, begin: &mut usize, filled: usize, most: usize) -> usize {
        let bytes = &self.input[..filled];
        let mut taken = 0;
        while taken < most {
            let Some(end) = reply_end(self.shared.protocol, bytes, *begin) else { break };
            if !is_good(self.shared.protocol, &bytes[*begin..end]) {
                counts.bad.fetch_add(1, Relaxed);
            }
            counts.bytes.fetch_add((end - *begin) as u64, Relaxed);
            *begin = end;
            taken += 1;
        }
        counts.requests.fetch_add(taken as u64, Relaxed);
        taken
    }
}

// ---- the measure

/// Nanoseconds of processor that the threads of a process have had.
fn processor_time(pid: &str) -> u64 {
    let Ok(tasks) = fs::read_dir(format!("/proc/{pid}/task")) else { return 0 };
    let of_task = |task: fs::DirEntry| {
        let text = fs::read_to_string(task.path().join("schedstat")).ok()?;
        text.split(' ').next()?.parse::<u64>().ok()
    };
    tasks.flatten().filter_map(of_task).sum()
}

/// The state at a moment.
struct Moment {
    at: Instant,
    server: u64,
    own: u64,
    requests: u64,
    bytes: u64,
}

impl Moment {
    fn now(pid: &str, counts: &[Counts]) -> Moment {
        Moment {
            at: Instant::now(),
            server: processor_time(pid),
            own: processor_time("self"),
            requests: counts.iter().map(|it| it.requests.load(Relaxed)).sum(),
            bytes: counts.iter().map(|it| it.bytes.load(Relaxed)).sum(),
        }
    }
}

fn percentile(sorted: &[u64], part: f64) -> u64 {
    let last = sorted.len().saturating_sub(1);
    sorted.get((last as f64 * part) as usize).copied().unwrap_or(0)
}

fn measure(shared: &Shared, streams: Vec<TcpStream>, length: Duration, pid: &str) -> io::Result<()> {
    let counts: Vec<Counts> = streams.iter().map(|_| Counts::default()).collect();
    thread::scope(|scope| {
        let mut threads = Vec::new();
        for (number, (stream, counts)) in streams.into_iter().zip(&counts).enumerate() {
            threads.push(scope.spawn(move || {
                let mut connection = Connection {
                    shared,
                    stream,
                    next: number * 7919 % shared.requests.len(),
                    out: Vec::new(),
                    input: vec![0; 1 << 20],
                    latencies: Vec::with_capacity(1 << 20),
                };
                shared.meeting.wait();
                let talked = connection.talk(counts);
                shared.meeting.wait();
                talked.map(|()| connection.latencies)
            }));
        }
        shared.meeting.wait();
        thread::sleep(WARM_UP);
        let begin = Moment::now(pid, &counts);
        shared.is_measuring.store(true, Relaxed);
        thread::sleep(length);
        let end = Moment::now(pid, &counts);
        shared.is_measuring.store(false, Relaxed);
        shared.is_over.store(true, Relaxed);
        shared.meeting.wait();
        let mut latencies = Vec::new();
        for thread in threads {
            latencies.extend(thread.join().unwrap()?);
        }
        latencies.sort_unstable();
        let bad: u64 = counts.iter().map(|it| it.bad.load(Relaxed)).sum();
        println!(
            "{} {} {} {} {} {} {} {} {}",
            end.requests - begin.requests,
            (end.at - begin.at).as_secs_f64(),
            percentile(&latencies, 0.5),
            percentile(&latencies, 0.99),
            percentile(&latencies, 0.999),
            end.server - begin.server,
            end.own - begin.own,
            end.bytes - begin.bytes,
            bad,
        );
        Ok(())
    })
}

fn run(words: &[String]) -> io::Result<()> {
    let [_, protocol, address, connections, depth, seconds, pid] = words else {
        return Err(io::Error::other("load lines|redis HOST:PORT CONNECTIONS DEPTH SECONDS PID < requests"));
    };
    let protocol = if protocol == "redis" { Protocol::Redis } else { Protocol::Lines };
    let connections: usize = connections.parse().map_err(io::Error::other)?;
    let requests: Vec<Vec<u8>> = io::stdin().lock().lines().map(|line| line.map(|line| encoded(protocol, &line))).collect::<io::Result<_>>()?;
    let mut streams = Vec::new();
    for _ in 0..connections {
        let stream = TcpStream::connect(address)?;
        stream.set_nodelay(true)?;
        streams.push(stream);
    }
    let shared = Shared {
        protocol,
        depth: depth.parse().map_err(io::Error::other)?,
        requests,
        is_measuring: AtomicBool::new(false),
        is_over: AtomicBool::new(false),
        meeting: Barrier::new(connections + 1),
    };
    measure(&shared, streams, Duration::from_secs_f64(seconds.parse().map_err(io::Error::other)?), pid)
}

fn main() -> ExitCode {
    let words: Vec<String> = env::args().collect();
    match run(&words) {
        Ok(()) => ExitCode::SUCCESS,
        Err(error) => {
            eprintln!("load: {error}");
            ExitCode::FAILURE
        }
    }
}
