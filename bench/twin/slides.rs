//! What came and went in a text since a revision, as `crates/text_history` keeps it.
use crate::index::Stamp;

#[derive(Clone, Copy)]
pub struct Slide {
    pub rev: u64,
    pub at: u64,
    pub first: Stamp,
    pub len: u64,
    pub shows: bool,
}

pub enum Carried {
    At(u64),
    Hidden(Stamp),
}

pub fn since(slides: &[Slide], rev: u64) -> &[Slide] {
    &slides[slides.partition_point(|slide| slide.rev <= rev)..]
}

pub fn count_before(slides: &[Slide], many: u64) -> u64 {
    slides.iter().rev().fold(many, |count, slide| {
        if slide.shows {
            count - slide.len
        } else {
            count + slide.len
        }
    })
}

pub fn carry(slides: &[Slide], place: u64) -> Carried {
    let mut at = place;
    for slide in slides {
        if at < slide.at {
            continue;
        }
        if slide.shows {
            at += slide.len;
        } else if at < slide.at + slide.len {
            return Carried::Hidden(slide.first.plus(at - slide.at));
        } else {
            at -= slide.len;
        }
    }
    Carried::At(at)
}
