//! One pad behind the lines of `pad_server --stdin`, as far as `bench/piped.py`, `bench/reads.py` and `bench/changes.py` ask:
//! `create`, `insert`, `delete` of one character, the present `text`, and `changes`, of letters alone. Each reply is one write.
use crate::json::{read, Value};
use crate::typing::{Piece, Row};
use std::io::{self, BufRead, Write};

/// What the log keeps of an operation.
struct Kept {
    number: u64,
    author: String,
    text: String,
}

pub struct Pad {
    row: Row,
    log: Vec<Kept>,
}

impl Pad {
    fn answer(&mut self, request: &Value) -> Option<String> {
        match request.text("do")? {
            "create" => Some(String::from("{\"now\":0,\"ok\":true,\"visit\":1}\n")),
            "insert" => {
                let text = request.text("text")?;
                self.row.type_at(request.number("rev")?, request.number("at")?, text);
                let number = self.keep(text);
                Some(format!("{{\"name\":[1,{number}],\"now\":{number},\"ok\":true}}\n"))
            }
            "delete" => {
                self.row.erase_at(request.number("at")?);
                let number = self.keep("");
                Some(format!("{{\"hidden\":1,\"name\":[1,{number}],\"now\":{number},\"ok\":true}}\n"))
            }
            "text" => {
                let number = self.log.last().map_or(0, |last| last.number);
                let text = self.row.shown();
                Some(format!("{{\"now\":{number},\"ok\":true,\"rev\":{number},\"text\":\"{text}\"}}\n"))
            }
            "changes" => {
                let now = self.log.last().map_or(0, |last| last.number);
                let rev = request.number("rev")?;
                let to = request.number("to").unwrap_or(now);
                let pieces: Vec<String> = self.row.changes(rev, to).iter().map(spelled).collect();
                let pieces = pieces.join(",");
                Some(format!("{{\"changes\":[{pieces}],\"notes\":0,\"now\":{now},\"ok\":true,\"rev\":{rev},\"to\":{to}}}\n"))
            }
            _ => None,
        }
    }

    fn keep(&mut self, text: &str) -> u64 {
        let number = self.log.last().map_or(0, |last| last.number) + 1;
        let author = self.log.last().map_or_else(|| String::from("solo"), |last| last.author.clone());
        self.log.push(Kept { number, author, text: text.to_string() });
        number
    }
}

fn spelled(piece: &Piece) -> String {
    match piece {
        Piece::Keep(len) => format!("[\"keep\",{len}]"),
        Piece::Drop(len) => format!("[\"drop\",{len}]"),
        Piece::Insert(text) => format!("[\"insert\",\"{text}\",\"solo@1\"]"),
    }
}

/// Answers lines until they end, and says how many bytes of text the log keeps.
pub fn serve() -> io::Result<()> {
    let mut pad = Pad { row: Row::new(), log: Vec::new() };
    let mut output = io::stdout().lock();
    let mut input = io::stdin().lock();
    let mut line = String::new();
    while input.read_line(&mut line)? > 0 {
        let reply = read(&line).and_then(|request| pad.answer(&request));
        output.write_all(reply.as_deref().unwrap_or("refused\n").as_bytes())?;
        line.clear();
    }
    let kept: usize = pad.log.iter().map(|kept| kept.text.len()).sum();
    eprintln!("twin: {kept} bytes in the log");
    Ok(())
}
