//! Writers that each send one request at a time over TCP, and how long the replies took.
//!
//! drive ADDRESS pads|kept|echo|refused WRITERS PADS SIZE REQUESTS
//!
//! An author first makes the pads, types SIZE characters into each, a hundred at a time, and lets the writers write. Then each writer inserts a
//! character at a random place of the revision that its last reply told, REQUESTS times. With `echo` the same lines are
//! written to a server that echoes them; with `refused` each has a letter before it, so that it is no JSON from its first
//! byte on. With `kept` the pads are there already, and have SIZE characters and revisions. It prints replies a second, and the median, the 99th of 100 and the 999th of 1,000 times from a line to its
//! reply, in microseconds. With `pads` a refusal ends it with a failure.
use std::io::{BufRead, BufReader, Write};
use std::net::TcpStream;
use std::sync::{Arc, Barrier};
use std::time::Instant;
use std::{env, process, thread};

/// How many characters are typed at a time before the writers begin.
const PIECE: u64 = 100;

struct Client {
    input: BufReader<TcpStream>,
    output: TcpStream,
    reply: String,
}

impl Client {
    fn connect(address: &str) -> Client {
        let output = TcpStream::connect(address).expect("a connection");
        output.set_nodelay(true).expect("a socket without delay");
        let input = BufReader::new(output.try_clone().expect("a second handle"));
        Client { input, output, reply: String::new() }
    }

    /// Sends a line and waits for its reply.
    fn ask(&mut self, line: &str) -> &str {
        self.output.write_all(line.as_bytes()).expect("a line that is taken");
        self.reply.clear();
        self.input.read_line(&mut self.reply).expect("a reply");
        &self.reply
    }

    /// The same, where a refusal is a failure. The revision that the reply tells of.
    fn does(&mut self, line: &str) -> u64 {
        let reply = self.ask(line);
        if !reply.contains("\"ok\":true") {
            eprintln!("drive: {line}{reply}");
            process::exit(1);
        }
        number_after(reply, "\"now\":").unwrap_or(0)
    }
}

fn number_after(text: &str, key: &str) -> Option<u64> {
    let rest = &text[text.find(key)? + key.len()..];
    let end = rest.find(|c: char| !c.is_ascii_digit()).unwrap_or(rest.len());
    rest[..end].parse().ok()
}

/// Makes the pads if they are not there, and lets the writers write. The revision of each.
fn prepare(address: &str, kind: Kind, writers: u64, pads: u64, size: u64) -> u64 {
    let mut owner = Client::connect(address);
    owner.does("{\"do\":\"hello\",\"name\":\"owner\",\"token\":\"t\"}\n");
    let mut now = 0;
    for pad in 0..pads {
        if kind == Kind::Kept {
            owner.does(&format!("{{\"do\":\"join\",\"pad\":\"p{pad}\"}}\n"));
            let_write(&mut owner, writers, pads, pad);
            owner.does(&format!("{{\"do\":\"leave\",\"pad\":\"p{pad}\"}}\n"));
            now = size;
            continue;
        }
        owner.does(&format!("{{\"do\":\"create\",\"pad\":\"p{pad}\"}}\n"));
        let text = "etaoin shrdlu ".repeat(PIECE as usize / 14 + 1);
        now = 0;
        for at in (0..size).step_by(PIECE as usize) {
            let piece = &text[..PIECE.min(size - at) as usize];
            now = owner.does(&format!(
                "{{\"at\":{at},\"do\":\"insert\",\"pad\":\"p{pad}\",\"rev\":{now},\"text\":\"{piece}\"}}\n"
            ));
        }
        let_write(&mut owner, writers, pads, pad);
    }
    now
}

/// Lets the writers of a pad write.
fn let_write(owner: &mut Client, writers: u64, pads: u64, pad: u64) {
    for writer in (pad..writers).step_by(pads as usize) {
        owner.does(&format!(
            "{{\"author\":\"w{writer}\",\"do\":\"grant\",\"pad\":\"p{pad}\",\"right\":\"write\"}}\n"
        ));
    }
}

/// A linear congruential generator, of which the high bits are used.
struct Dice(u64);

impl Dice {
    fn below(&mut self, limit: u64) -> u64 {
        self.0 = self.0.wrapping_mul(6364136223846793005).wrapping_add(1442695040888963407);
        (self.0 >> 33) % limit
    }
}

#[derive(Clone, Copy, PartialEq)]
enum Kind {
    Pads,
    Kept,
    Echo,
    Refused,
}

impl Kind {
    /// Whether pads are written.
    fn is_of_pads(self) -> bool {
        matches!(self, Kind::Pads | Kind::Kept)
    }

    fn of(word: &str) -> Kind {
        match word {
            "kept" => Kind::Kept,
            "echo" => Kind::Echo,
            "refused" => Kind::Refused,
            _ => Kind::Pads,
        }
    }
}

struct Task {
    address: String,
    kind: Kind,
    writer: u64,
    pad: u64,
    size: u64,
    requests: u64,
    rev: u64,
}

/// Types as one writer. When it began and ended, and the time of each reply in nanoseconds.
fn write(task: Task, start: &Barrier) -> (Instant, Instant, Vec<u64>) {
    let mut client = Client::connect(&task.address);
    let (writer, pad) = (task.writer, task.pad);
    if task.kind.is_of_pads() {
        client.does(&format!("{{\"do\":\"hello\",\"name\":\"w{writer}\",\"token\":\"t\"}}\n"));
        client.does(&format!("{{\"do\":\"join\",\"pad\":\"p{pad}\"}}\n"));
    }
    let mut dice = Dice(writer + 1);
    let mut rev = task.rev;
    let mut times = Vec::with_capacity(task.requests as usize);
    start.wait();
    let begun = Instant::now();
    for _ in 0..task.requests {
        let at = dice.below(task.size);
        let first = if task.kind == Kind::Refused { "x" } else { "" };
        let line = format!("{first}{{\"at\":{at},\"do\":\"insert\",\"pad\":\"p{pad}\",\"rev\":{rev},\"text\":\"x\"}}\n");
        let asked = Instant::now();
        if task.kind.is_of_pads() {
            rev = client.does(&line);
        } else {
            client.ask(&line);
            rev += 1;
        }
        times.push(asked.elapsed().as_nanos() as u64);
    }
    (begun, Instant::now(), times)
}

fn main() {
    let words: Vec<String> = env::args().collect();
    let [_, address, kind, numbers @ ..] = words.as_slice() else {
        panic!("drive ADDRESS pads|kept|echo|refused WRITERS PADS SIZE REQUESTS");
    };
    let numbers: Vec<u64> = numbers.iter().map(|word| word.parse().expect("a number")).collect();
    let [writers, pads, size, requests] = numbers[..] else {
        panic!("drive ADDRESS pads|kept|echo|refused WRITERS PADS SIZE REQUESTS");
    };
    let kind = Kind::of(kind);
    let rev = if kind.is_of_pads() { prepare(address, kind, writers, pads, size) } else { 1 };
    let start = Arc::new(Barrier::new(writers as usize));
    let threads: Vec<_> = (0..writers)
        .map(|writer| {
            let (start, address) = (start.clone(), address.clone());
            let task = Task { address, kind, writer, pad: writer % pads, size, requests, rev };
            thread::spawn(move || write(task, &start))
        })
        .collect();
    let all: Vec<_> = threads.into_iter().map(|thread| thread.join().expect("a writer")).collect();
    let begun = all.iter().map(|each| each.0).min().expect("a writer");
    let ended = all.iter().map(|each| each.1).max().expect("a writer");
    let mut times: Vec<u64> = all.into_iter().flat_map(|each| each.2).collect();
    times.sort_unstable();
    let at = |part: f64| times[((times.len() - 1) as f64 * part) as usize] as f64 / 1000.0;
    let rate = times.len() as f64 / (ended - begun).as_secs_f64();
    println!("{rate:.0} {:.1} {:.1} {:.1}", at(0.5), at(0.99), at(0.999));
}
