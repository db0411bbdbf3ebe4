//! The measures of a term, computed from those of its operands.
//!
//! Document 01, "Unfolding, size and breadth": size, reach G and breadth W, of quantifiers without unfolding
//! them.

/// Size, reach G and breadth W of a term. A process that main does not call may measure 64^248 words, so sums
/// and products saturate at 2^32 - 1, which is far above both limits; a saturated measure never falls below a
/// limit again.
#[derive(Clone, Copy)]
pub(super) struct Measure {
    pub size: u32,
    pub reach: u32,
    pub breadth: u32,
}

impl Measure {
    /// A leaf of n words, code 20 or 21.
    pub fn leaf(words: u32) -> Measure {
        Measure { size: words, reach: words, breadth: 1 }
    }

    pub fn sequence(self, right: Measure) -> Measure {
        Measure {
            size: self.size.saturating_add(right.size).saturating_add(1),
            reach: self.reach.saturating_add(right.size).saturating_add(1).max(right.reach),
            breadth: self.breadth.max(right.breadth),
        }
    }

    pub fn choice(self, right: Measure) -> Measure {
        let size = self.size.saturating_add(right.size).saturating_add(1);
        Measure {
            size,
            reach: size.max(self.reach).max(right.reach),
            breadth: self.breadth.saturating_add(right.breadth),
        }
    }

    pub fn star(self) -> Measure {
        Measure {
            size: self.size.saturating_add(1),
            reach: self.reach.saturating_add(self.size).saturating_add(2),
            breadth: self.breadth.saturating_add(1),
        }
    }

    pub fn parallel(self, right: Measure, masked: bool) -> Measure {
        let side_by_side = self.breadth.saturating_add(right.breadth);
        let pairs = if masked { self.breadth.saturating_mul(right.breadth) } else { 0 };
        Measure {
            size: self.size.saturating_add(right.size).saturating_add(5),
            reach: self.reach.saturating_add(right.reach).saturating_add(5),
            breadth: side_by_side.saturating_add(pairs).max(1),
        }
    }

    pub fn guard(self, condition: u32) -> Measure {
        let size = self.size.saturating_add(condition + 1);
        Measure { size, reach: size.max(self.reach), breadth: self.breadth }
    }

    /// n copies with n - 1 choices between them, nested to the right. The inner choices are smaller than the
    /// whole, so its reach is the larger of its size and a copy's reach.
    pub fn choice_copies(self, copies: u32) -> Measure {
        let size = self.size.saturating_mul(copies).saturating_add(copies - 1);
        Measure { size, reach: size.max(self.reach), breadth: self.breadth.saturating_mul(copies) }
    }

    /// n copies in parallel. No rule term has breadth 0, so "the larger of 1" changes nothing; and l + r + l
    /// × r is (1 + l) × (1 + r) - 1, so that n copies give a power.
    pub fn parallel_copies(self, copies: u32, masked: bool) -> Measure {
        let between = 5 * (copies - 1);
        let breadth = if masked {
            self.breadth.saturating_add(1).saturating_pow(copies) - 1
        } else {
            self.breadth.saturating_mul(copies)
        };
        Measure {
            size: self.size.saturating_mul(copies).saturating_add(between),
            reach: self.reach.saturating_mul(copies).saturating_add(between),
            breadth,
        }
    }
}
