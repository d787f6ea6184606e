//! Numbers that are the same in each run and in `crates/pad_bench`, which draws them from `crates/dice`.

/// Knuth's linear congruential generator, of which the high bits are used.
pub struct Dice {
    state: u64,
}

impl Dice {
    pub fn new() -> Dice {
        Dice { state: 2026 }
    }

    pub fn roll(&mut self, sides: u64) -> u64 {
        self.state = self
            .state
            .wrapping_mul(6_364_136_223_846_793_005)
            .wrapping_add(1_442_695_040_888_963_407);
        (self.state >> 33) % sides
    }
}
