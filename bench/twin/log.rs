//! A log of operations as a plain vector, and one walk over it that copies each of them.
use crate::dice::Dice;

#[allow(dead_code)]
#[derive(Clone)]
enum Part {
    Insert {
        first: (u64, u16),
        after: Option<(u64, u16)>,
        text: Vec<char>,
    },
}

#[allow(dead_code)]
#[derive(Clone)]
struct Op {
    origin: u16,
    number: u64,
    seen: Vec<(u16, u64)>,
    author: String,
    parts: Vec<Part>,
}

fn grown(size: u32) -> Vec<Op> {
    let mut dice = Dice::new();
    let mut counts = [0u64; 3];
    let mut log = Vec::new();
    for _ in 0..size {
        let origin = dice.roll(3) as u16 + 1;
        let count = &mut counts[usize::from(origin) - 1];
        *count += 1;
        let text = vec!['x'];
        log.push(Op {
            origin,
            number: *count,
            seen: Vec::new(),
            author: String::from("ann"),
            parts: vec![Part::Insert {
                first: (*count, origin),
                after: None,
                text,
            }],
        });
    }
    log
}

/// What a peer lacks that has nothing: the whole log, which is walked that many times.
pub fn pull(size: u32, times: u32) -> String {
    let log = grown(size);
    let (mut operations, mut check) = (0u64, 0u64);
    for _ in 0..times {
        for op in &log {
            let copy = std::hint::black_box(op.clone());
            let number = copy
                .number
                .wrapping_mul(3)
                .wrapping_add(u64::from(copy.origin));
            operations += 1;
            check = check.wrapping_mul(31).wrapping_add(number);
        }
    }
    format!("operations {operations}, check {check}")
}
