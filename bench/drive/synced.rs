//! An echo over TCP that keeps what it answers: a line is appended to a file, with as many bytes more as a record has beside
//! it, and synced before it is echoed. Each connection has a thread and a file of its own.
//!
//! synced FOLDER BYTES CONNECTIONS
use std::fs::OpenOptions;
use std::io::{BufRead, BufReader, Write};
use std::net::{TcpListener, TcpStream};
use std::{env, thread};

fn serve(stream: TcpStream, path: String, bytes: usize) {
    stream.set_nodelay(true).expect("a socket without delay");
    let mut file = OpenOptions::new().append(true).create(true).open(path).expect("a file");
    let mut input = BufReader::new(stream.try_clone().expect("a second handle"));
    let mut output = stream;
    let mut line = String::new();
    let mut kept = Vec::with_capacity(bytes);
    while input.read_line(&mut line).expect("a line") > 0 {
        kept.clear();
        kept.extend_from_slice(line.trim_end().as_bytes());
        kept.resize(bytes - 1, b'.');
        kept.push(b'\n');
        file.write_all(&kept).expect("room");
        file.sync_data().expect("a sync");
        output.write_all(line.as_bytes()).expect("a line that is taken");
        line.clear();
    }
}

fn main() {
    let words: Vec<String> = env::args().collect();
    let [_, folder, bytes, connections] = words.as_slice() else {
        panic!("synced FOLDER BYTES CONNECTIONS");
    };
    let (bytes, connections): (usize, usize) = (bytes.parse().expect("a number"), connections.parse().expect("a number"));
    let listener = TcpListener::bind("127.0.0.1:0").expect("a port");
    println!("listening on {}", listener.local_addr().expect("an address"));
    let threads: Vec<_> = (0..connections)
        .map(|number| {
            let (stream, _) = listener.accept().expect("a connection");
            let path = format!("{folder}/{number}");
            thread::spawn(move || serve(stream, path, bytes))
        })
        .collect();
    for thread in threads {
        thread.join().expect("a thread");
    }
}
