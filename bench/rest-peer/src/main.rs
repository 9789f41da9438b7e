//! rest-peer SETTINGS: serves the data channel over a script on standard input, and prints what is sent, as `dots replay SETTINGS` does.
//!
//! It is what `bench/rest` measures `dots` against: the same rules and the same journal, in memory, in plain Rust, with serde_json for the bodies.
//! It has no signal channel, no restarts, and of the data channel no POST, no access lists and no host names. A line of the script that it can't serve
//! ends it with status 5, settings that it can't read with status 3.

mod alias;
mod http;
mod journal;
mod prefix;
mod server;
mod settings;

use http::Cut;
use server::Server;
use std::collections::HashMap;
use std::io::{Read, Write};

/// An open connection, and the bytes of it that aren't answered yet.
struct Connection {
    peer: u32,
    domain: usize,
    held: Vec<u8>,
}

struct Front {
    server: Server,
    connections: HashMap<u32, Connection>,
    /// What is printed.
    out: Vec<u8>,
    /// The bytes of one reply.
    reply: Vec<u8>,
}

impl Front {
    fn open(&mut self, conn: u32, peer: u32) {
        self.connections.remove(&conn);
        let open = self.connections.values().filter(|other| other.peer == peer).count();
        match self.server.domain_of(peer) {
            Some(domain) if open < 2 => {
                self.connections.insert(conn, Connection { peer, domain, held: Vec::with_capacity(16_384) });
            }
            _ => self.print_close(conn),
        }
    }

    /// Answers each request that is whole with this piece.
    fn piece(&mut self, conn: u32, piece: &[u8]) {
        let Some(mut connection) = self.connections.remove(&conn) else { return };
        connection.held.extend_from_slice(piece);
        let mut at = 0;
        loop {
            self.reply.clear();
            let close = match http::cut(&connection.held[at..]) {
                Cut::More => break,
                Cut::Refused(status) => {
                    http::put_reply(&mut self.reply, status, true, "", None);
                    true
                }
                Cut::Request(request) => {
                    let reply = self.server.answer(connection.peer, connection.domain, &request);
                    http::put_reply(&mut self.reply, reply.status, request.close, reply.allow, reply.body.as_deref());
                    at += request.size;
                    request.close
                }
            };
            self.print_reply(conn);
            if close {
                return self.print_close(conn);
            }
        }
        connection.held.drain(..at);
        self.connections.insert(conn, connection);
    }

    fn print_reply(&mut self, conn: u32) {
        let _ = write!(self.out, "conn {conn} ");
        let from = self.out.len();
        self.out.resize(from + 2 * self.reply.len(), 0);
        for (pair, byte) in self.out[from..].chunks_exact_mut(2).zip(&self.reply) {
            pair.copy_from_slice(&[DIGITS[usize::from(byte >> 4)], DIGITS[usize::from(byte & 15)]]);
        }
        self.out.push(b'\n');
    }

    fn print_close(&mut self, conn: u32) {
        let _ = writeln!(self.out, "close {conn}");
    }

    /// Serves a line; None where it is none that can be served.
    fn line(&mut self, line: &str, piece: &mut Vec<u8>) -> Option<()> {
        let mut words = line.strip_prefix("at ")?.splitn(4, ' ');
        self.server.move_time(words.next()?.parse().ok()?);
        match words.next()? {
            "open" => {
                let conn = words.next()?.parse().ok()?;
                self.open(conn, words.next()?.parse().ok()?);
            }
            "piece" => {
                let conn = words.next()?.parse().ok()?;
                unhex(words.next()?.as_bytes(), piece)?;
                self.piece(conn, piece);
            }
            "close" => {
                self.connections.remove(&words.next()?.parse().ok()?);
            }
            "tick" => {}
            _ => return None,
        }
        Some(())
    }
}

const DIGITS: &[u8; 16] = b"0123456789abcdef";

/// What each byte is as a hexadecimal digit; 255 where it is none.
const DIGIT_OF: [u8; 256] = {
    let mut table = [255; 256];
    let mut digit = 0;
    while digit < 16 {
        table[DIGITS[digit] as usize] = digit as u8;
        table[DIGITS[digit].to_ascii_uppercase() as usize] = digit as u8;
        digit += 1;
    }
    table
};

fn unhex(word: &[u8], into: &mut Vec<u8>) -> Option<()> {
    into.clear();
    into.resize(word.len() / 2, 0);
    let mut all = if word.len() % 2 == 0 { 0 } else { 255 };
    for (byte, pair) in into.iter_mut().zip(word.chunks_exact(2)) {
        let (high, low) = (DIGIT_OF[usize::from(pair[0])], DIGIT_OF[usize::from(pair[1])]);
        all |= high | low;
        *byte = high << 4 | low;
    }
    if all < 16 { Some(()) } else { None }
}

fn run() -> Option<()> {
    let path = std::env::args().nth(1).unwrap_or_default();
    let settings = std::fs::read_to_string(path).ok().and_then(|text| settings::Settings::parse(&text));
    let Some(settings) = settings else { std::process::exit(3) };
    let (mut script, mut piece) = (String::new(), vec![]);
    std::io::stdin().lock().read_to_string(&mut script).ok()?;
    let mut front = Front { server: Server::new(settings), connections: HashMap::new(), out: Vec::new(), reply: Vec::new() };
    let mut printed = std::io::stdout().lock();
    for line in script.lines().filter(|line| !line.is_empty() && !line.starts_with('#')) {
        front.line(line, &mut piece)?;
        if front.out.len() > 1 << 16 {
            printed.write_all(&front.out).ok()?;
            front.out.clear();
        }
    }
    printed.write_all(&front.out).ok()
}

fn main() {
    if run().is_none() {
        std::process::exit(5);
    }
}
