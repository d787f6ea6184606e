//! The work of `crates/pad_bench` in plain Rust, over the same structures written for it alone. It reads and prints
//! the same lines. With the word `lines` it answers requests as `pad_server --stdin` does.
mod dice;
mod index;
mod json;
mod lines;
mod log;
mod slides;
mod tree;
mod typing;

use std::{env, io};
use std::process::ExitCode;
use typing::Trace;

fn trace(work: &str) -> Option<Trace> {
    Some(match work {
        "append" => Trace::Append,
        "forward" => Trace::Forward,
        "backward" => Trace::Backward,
        "random" => Trace::Random,
        "stale1" => Trace::Stale(1),
        "stale4" => Trace::Stale(4),
        "stale64" => Trace::Stale(64),
        "stale1000" => Trace::Stale(1_000),
        _ => return None,
    })
}

fn counts(line: &str) -> Option<String> {
    let words: Vec<&str> = line.split_whitespace().collect();
    let [work, size, times] = words.as_slice() else {
        return None;
    };
    let (Ok(size), Ok(times)) = (size.parse(), times.parse()) else {
        return None;
    };
    if let Some(trace) = trace(work) {
        return Some(typing::edits(trace, size, times));
    }
    if let Some(trace) = work.strip_prefix("writes-").and_then(trace) {
        return Some(typing::writes(trace, size).to_string());
    }
    match *work {
        "insert" => Some(tree::insert(size, times)),
        "iterate" => Some(tree::iterate(size, times)),
        "locate" => Some(index::locate(size, times)),
        "pull" => Some(log::pull(size, times)),
        _ => None,
    }
}

fn main() -> io::Result<ExitCode> {
    if env::args().nth(1).as_deref() == Some("lines") {
        lines::serve()?;
        return Ok(ExitCode::SUCCESS);
    }
    for line in io::stdin().lines() {
        let line = line?;
        let Some(counts) = counts(&line) else {
            eprintln!("twin: no such work: {line}");
            return Ok(ExitCode::from(2));
        };
        println!("{line}: {counts}");
    }
    Ok(ExitCode::SUCCESS)
}
