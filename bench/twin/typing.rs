//! A text as blocks of what was typed at once, as `crates/blocks` and `crates/block_seq` keep it: the same cuts, the same
//! scan and the same labels.
use crate::dice::Dice;
use crate::index::{Entry, Index, Stamp};
use crate::slides::{carry, count_before, since, Carried, Slide};
use crate::tree::{Tree, Weigh};

const REPLICA: u16 = 1;
const STRIDE: u64 = 65_536;
const LAST_LABEL: u64 = u64::MAX;

#[derive(Clone, Copy)]
struct Block {
    first: Stamp,
    parent: Option<Stamp>,
    born: u64,
    died: Option<u64>,
    label: u64,
    start: usize,
    len: u64,
}

impl Weigh for Block {
    fn weight(&self) -> u64 {
        if self.died.is_some() {
            0
        } else {
            self.len
        }
    }
}

impl Block {
    fn is_shown(&self, rev: u64) -> bool {
        self.born <= rev && self.died.is_none_or(|died| rev < died)
    }
}

/// A stretch of the difference between two revisions.
pub enum Piece {
    Keep(u64),
    Drop(u64),
    Insert(String),
}

/// Adds a piece, to the last one where that does the same.
fn add(pieces: &mut Vec<Piece>, piece: Piece) {
    match (pieces.last_mut(), piece) {
        (_, Piece::Keep(0)) => {}
        (Some(Piece::Keep(last)), Piece::Keep(more)) | (Some(Piece::Drop(last)), Piece::Drop(more)) => *last += more,
        (Some(Piece::Insert(last)), Piece::Insert(more)) => last.push_str(&more),
        (_, piece) => pieces.push(piece),
    }
}

#[derive(Clone, Copy)]
pub enum Trace {
    Append,
    Forward,
    Backward,
    Random,
    Stale(u64),
}

pub struct Row {
    tree: Tree<Block>,
    index: Index,
    text: Vec<char>,
    slides: Vec<Slide>,
    rev: u64,
    clock: u64,
    /// How many labels were written.
    writes: u64,
}

impl Row {
    pub fn new() -> Row {
        Row {
            tree: Tree::new(),
            index: Index::new(),
            text: Vec::new(),
            slides: Vec::new(),
            rev: 0,
            clock: 0,
            writes: 0,
        }
    }

    fn find(&self, stamp: Stamp) -> Option<(usize, u64)> {
        let place = self.index.locate(stamp)?;
        Some((
            self.tree.rank_by(|block| block.label < place.label),
            place.offset,
        ))
    }

    fn len_at(&self, rev: u64) -> u64 {
        count_before(since(&self.slides, rev), self.tree.weight())
    }

    fn stamp_at(&self, rev: u64, place: u64) -> Option<Stamp> {
        let recent = since(&self.slides, rev);
        if count_before(recent, self.tree.weight()) <= place {
            return None;
        }
        match carry(recent, place) {
            Carried::Hidden(stamp) => Some(stamp),
            Carried::At(now) => {
                let (block, offset) = self.tree.find(now)?;
                Some(block.first.plus(offset))
            }
        }
    }

    fn label_before(&self, rank: usize) -> u64 {
        if rank == 0 {
            0
        } else {
            self.tree.get(rank - 1).label
        }
    }

    fn label_from(&self, rank: usize) -> u64 {
        if rank == self.tree.len() {
            LAST_LABEL
        } else {
            self.tree.get(rank).label
        }
    }

    fn label_between(&self, rank: usize) -> Option<u64> {
        let left = self.label_before(rank);
        let gap = self.label_from(rank) - left;
        (gap >= 2).then(|| left + (gap / 2).min(STRIDE))
    }

    fn window(&self, rank: usize, reach: usize) -> (usize, usize, u64, u64) {
        let from = rank.saturating_sub(reach);
        let to = rank.saturating_add(reach).min(self.tree.len());
        let low = self.label_before(from);
        let step = (self.label_from(to) - low) / ((to - from) as u64 + 1);
        (from, to, low, step)
    }

    fn window_round(&self, rank: usize) -> (usize, usize, u64, u64) {
        let mut reach = 1;
        while reach < self.tree.len() {
            let window = self.window(rank, reach);
            let blocks = (window.1 - window.0) as u64;
            if window.3 >= 2 && window.3 > blocks * blocks {
                return window;
            }
            reach *= 2;
        }
        self.window(rank, self.tree.len())
    }

    fn free_label(&mut self, rank: usize) -> u64 {
        self.writes += 1;
        if let Some(label) = self.label_between(rank) {
            return label;
        }
        let (from, to, mut label, step) = self.window_round(rank);
        for rank in from..to {
            label += step;
            let block = Block {
                label,
                ..*self.tree.get(rank)
            };
            self.index.relabel(block.first, label);
            self.tree.replace(rank, block);
            self.writes += 1;
        }
        self.label_between(rank).expect("there is room")
    }

    fn cut_at(&mut self, stamp: Stamp) {
        let Some((rank, offset)) = self.find(stamp) else {
            return;
        };
        if offset == 0 {
            return;
        }
        let label = self.free_label(rank + 1);
        let whole = *self.tree.get(rank);
        self.index.cut(whole.first, offset, label);
        self.tree.replace(
            rank,
            Block {
                len: offset,
                ..whole
            },
        );
        let right = Block {
            first: whole.first.plus(offset),
            parent: Some(whole.first.plus(offset - 1)),
            start: whole.start + offset as usize,
            len: whole.len - offset,
            label,
            ..whole
        };
        self.tree.insert(rank + 1, right);
    }

    fn place(&mut self, first: Stamp, parent: Option<Stamp>) -> usize {
        let start = parent.map_or(0, |stamp| {
            self.cut_at(stamp.plus(1));
            self.find(stamp)
                .map_or(self.tree.len(), |(rank, _)| rank + 1)
        });
        let newer = |rank: &usize| self.tree.get(*rank).first.is_newer(first);
        start + (start..self.tree.len()).take_while(newer).count()
    }

    fn fits(&self, first: Stamp, parent: Option<Stamp>) -> bool {
        let hangs =
            parent.is_none_or(|stamp| self.find(stamp).is_some() && stamp.counter < first.counter);
        hangs && self.index.last_of(first.replica) < first.counter
    }

    pub fn type_at(&mut self, seen: u64, at: u64, text: &str) {
        let parent = at
            .checked_sub(1)
            .and_then(|place| self.stamp_at(seen, place));
        let first = Stamp {
            replica: REPLICA,
            counter: self.clock + 1,
        };
        assert!(self.fits(first, parent), "the run fits");
        let text: Vec<char> = text.chars().collect();
        let rank = self.place(first, parent);
        let label = self.free_label(rank);
        let len = text.len() as u64;
        self.rev += 1;
        let start = self.text.len();
        self.slides.push(Slide {
            rev: self.rev,
            at: self.tree.before(rank),
            first,
            len,
            shows: true,
        });
        let block = Block {
            first,
            parent,
            born: self.rev,
            died: None,
            label,
            start,
            len,
        };
        self.index.add(first, Entry { len, label });
        self.tree.insert(rank, block);
        self.text.extend(&text);
        self.clock = self.clock.max(first.counter + len - 1);
    }

    /// What is visible at present.
    pub fn shown(&self) -> String {
        let visible = self.tree.iter().filter(|block| block.died.is_none());
        visible.flat_map(|block| &self.text[block.start..block.start + block.len as usize]).collect()
    }

    /// The ranks of the blocks that hold what came or went after a revision, in order, some twice.
    fn touched(&self, rev: u64) -> Vec<usize> {
        let mut ranks = Vec::new();
        for slide in since(&self.slides, rev) {
            let mut offset = 0;
            while offset < slide.len {
                let (rank, inside) = self.find(slide.first.plus(offset)).expect("it is there");
                ranks.push(rank);
                offset += self.tree.get(rank).len - inside;
            }
        }
        ranks.sort();
        ranks
    }

    /// What leads from one revision to another, in the fewest pieces, by the same slides as `crates/block_seq`.
    pub fn changes(&self, rev: u64, to: u64) -> Vec<Piece> {
        let mut pieces = Vec::new();
        if since(&self.slides, rev).len() >= self.tree.len() / 8 {
            for block in self.tree.iter() {
                self.add_block(&mut pieces, block, rev, to);
            }
            return pieces;
        }
        let mut next = 0;
        for rank in self.touched(rev) {
            if next <= rank {
                add(&mut pieces, Piece::Keep(self.tree.before(rank) - self.tree.before(next)));
                self.add_block(&mut pieces, self.tree.get(rank), rev, to);
                next = rank + 1;
            }
        }
        add(&mut pieces, Piece::Keep(self.tree.weight() - self.tree.before(next)));
        pieces
    }

    fn add_block(&self, pieces: &mut Vec<Piece>, block: &Block, rev: u64, to: u64) {
        match (block.is_shown(rev), block.is_shown(to)) {
            (true, true) => add(pieces, Piece::Keep(block.len)),
            (true, false) => add(pieces, Piece::Drop(block.len)),
            (false, true) => add(pieces, Piece::Insert(self.text[block.start..block.start + block.len as usize].iter().collect())),
            (false, false) => {}
        }
    }

    pub fn erase_at(&mut self, at: u64) {
        let Some(stamp) = self.stamp_at(self.rev, at) else {
            return;
        };
        assert!(self.find(stamp).is_some(), "the character is there");
        self.cut_at(stamp);
        self.cut_at(stamp.plus(1));
        self.rev += 1;
        let Some((rank, _)) = self.find(stamp) else {
            return;
        };
        let block = *self.tree.get(rank);
        if block.died.is_none() {
            self.slides.push(Slide {
                rev: self.rev,
                at: self.tree.before(rank),
                first: block.first,
                len: block.len,
                shows: false,
            });
            self.tree.replace(
                rank,
                Block {
                    died: Some(self.rev),
                    ..block
                },
            );
        }
    }

    fn edit(&mut self, dice: &mut Dice, trace: Trace, number: u64) {
        let now = self.rev;
        match trace {
            Trace::Append => self.type_at(now, number, "x"),
            Trace::Forward => self.type_at(now, number.saturating_sub(1), "x"),
            Trace::Backward => self.type_at(now, number.min(1), "x"),
            Trace::Random if number % 8 == 7 => {
                let at = dice.roll(self.len_at(now));
                self.erase_at(at);
            }
            Trace::Random => {
                let at = dice.roll(self.len_at(now) + 1);
                self.type_at(now, at, "text");
            }
            Trace::Stale(behind) => {
                let seen = now.saturating_sub(behind);
                let at = dice.roll(self.len_at(seen) + 1);
                self.type_at(seen, at, "text");
            }
        }
    }

    fn counts(&self) -> String {
        let mut check: u64 = 0;
        for block in self.tree.iter() {
            let parent = block.parent.map_or(0, |stamp| stamp.counter);
            check = check
                .wrapping_mul(31)
                .wrapping_add(block.first.counter ^ parent ^ block.label);
        }
        format!(
            "blocks {}, shown {}, check {check}",
            self.tree.len(),
            self.len_at(self.rev)
        )
    }
}

/// The row after that many edits.
fn edited(trace: Trace, size: u32) -> Row {
    let mut dice = Dice::new();
    let mut row = Row::new();
    for number in 0..u64::from(size) {
        row.edit(&mut dice, trace, number);
    }
    row
}

pub fn edits(trace: Trace, size: u32, times: u32) -> String {
    let mut counts = String::new();
    for _ in 0..times {
        counts = edited(trace, size).counts();
    }
    counts
}

/// How many labels each edit of a trace writes, in hundredths.
pub fn writes(trace: Trace, size: u32) -> u64 {
    edited(trace, size).writes * 100 / u64::from(size.max(1))
}
