//! Blocks of characters by replica and first counter, in a map of std's.
use crate::dice::Dice;
use std::collections::BTreeMap;

const REPLICAS: u16 = 8;

#[derive(Clone, Copy, PartialEq, Eq, PartialOrd, Ord)]
pub struct Stamp {
    pub replica: u16,
    pub counter: u64,
}

impl Stamp {
    pub fn plus(self, places: u64) -> Stamp {
        let counter = self.counter + places;
        Stamp { counter, ..self }
    }

    pub fn is_newer(self, other: Stamp) -> bool {
        (self.counter, self.replica) > (other.counter, other.replica)
    }
}

#[derive(Clone, Copy)]
pub struct Entry {
    pub len: u64,
    pub label: u64,
}

pub struct Place {
    pub first: Stamp,
    pub offset: u64,
    pub label: u64,
}

pub struct Index {
    entries: BTreeMap<Stamp, Entry>,
}

impl Index {
    pub fn new() -> Index {
        Index {
            entries: BTreeMap::new(),
        }
    }

    pub fn add(&mut self, first: Stamp, entry: Entry) {
        self.entries.insert(first, entry);
    }

    pub fn relabel(&mut self, first: Stamp, label: u64) {
        self.entries
            .get_mut(&first)
            .expect("the block is there")
            .label = label;
    }

    /// The greatest counter of a replica, or 0.
    pub fn last_of(&self, replica: u16) -> u64 {
        let counter = u64::MAX;
        let last = self
            .entries
            .range(..=Stamp { replica, counter })
            .next_back();
        last.map_or(0, |(first, entry)| {
            if first.replica == replica {
                first.counter + (entry.len - 1)
            } else {
                0
            }
        })
    }

    pub fn locate(&self, stamp: Stamp) -> Option<Place> {
        let (first, entry) = self.entries.range(..=stamp).next_back()?;
        if first.replica != stamp.replica {
            return None;
        }
        let offset = stamp.counter - first.counter;
        (offset < entry.len).then_some(Place {
            first: *first,
            offset,
            label: entry.label,
        })
    }

    pub fn cut(&mut self, first: Stamp, offset: u64, label: u64) {
        let left = self.entries.get_mut(&first).expect("the block is there");
        let right = Entry {
            len: left.len - offset,
            label,
        };
        left.len = offset;
        let counter = first.counter + offset;
        self.entries.insert(Stamp { counter, ..first }, right);
    }
}

/// A stamp of one of the replicas, of which each has that many.
fn any_stamp(dice: &mut Dice, each: u32) -> Stamp {
    let counter = dice.roll(u64::from(each)) + 1;
    let replica = dice.roll(u64::from(REPLICAS)) as u16 + 1;
    Stamp { replica, counter }
}

/// Each replica's block is cut at random characters, and then some parts are taken away.
fn cut(dice: &mut Dice, cuts: u32) -> Index {
    let mut index = Index {
        entries: BTreeMap::new(),
    };
    for replica in 1..=REPLICAS {
        let whole = Entry {
            len: u64::from(cuts),
            label: 0,
        };
        index.entries.insert(
            Stamp {
                replica,
                counter: 1,
            },
            whole,
        );
    }
    for label in 0..cuts {
        if let Some(place) = index.locate(any_stamp(dice, cuts)) {
            if place.offset > 0 {
                index.cut(place.first, place.offset, u64::from(label));
            }
        }
    }
    for _ in 0..cuts / 16 {
        if let Some(place) = index.locate(any_stamp(dice, cuts)) {
            index.entries.remove(&place.first);
        }
    }
    index
}

/// Finds that many random characters in an index of about that many blocks of eight characters on average.
pub fn locate(cuts: u32, times: u32) -> String {
    let mut dice = Dice::new();
    let (mut found, mut check) = (0u64, 0u64);
    if cuts == 0 {
        return String::from("blocks 0");
    }
    let index = cut(&mut dice, cuts);
    for _ in 0..times {
        if let Some(place) = index.locate(any_stamp(&mut dice, cuts)) {
            found += 1;
            check = check
                .wrapping_mul(31)
                .wrapping_add(place.offset ^ place.label);
        }
    }
    format!(
        "blocks {}, found {found}, check {check}",
        index.entries.len()
    )
}
