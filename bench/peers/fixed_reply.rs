//! The least that a line-based server can do: it answers each line with the same fixed reply, read at the start. For `bench/serve`,
//! which measures by it how many requests a second the load generator, loopback and the machine allow any server to answer.
//!
//!     rustc --edition 2021 -O bench/peers/fixed_reply.rs && ./fixed_reply < reply
//!
//! It prints its address, and serves until it is killed, each connection on a thread of its own: a read of up to 64 KB, and a write of a
//! reply for each LF among these bytes.

use std::io::{self, Read, Write};
use std::net::{TcpListener, TcpStream};
use std::thread;

fn serve(mut stream: TcpStream, reply: &[u8]) -> io::Result<()> {
    stream.set_nodelay(true)?;
    let mut bytes = vec![0; 64 << 10];
    loop {
        let length = stream.read(&mut bytes)?;
        if length == 0 {
            return Ok(());
        }
        let lines = bytes[..length].iter().filter(|byte| **byte == b'\n').count();
        stream.write_all(&reply.repeat(lines))?;
    }
}

fn main() -> io::Result<()> {
    let mut reply = Vec::new();
    io::stdin().read_to_end(&mut reply)?;
    let reply: &[u8] = reply.leak();
    let listener = TcpListener::bind("127.0.0.1:0")?;
    println!("{}", listener.local_addr()?);
    for stream in listener.incoming() {
        let stream = stream?;
        thread::spawn(move || serve(stream, reply));
    }
    Ok(())
}
