//! Where a search stands between two calls.

use crate::raw;

/// The state of a search. Nothing in it points anywhere: a host may clone it, store its bytes and go on from them later.
#[derive(Clone, Debug, PartialEq)]
pub struct State(pub(crate) raw::State);

impl State {
    /// The number of bytes of a stored state.
    pub const BYTES: usize = 56;

    /// The state that every search starts from.
    pub fn fresh() -> State {
        State(raw::State::default())
    }

    /// The combinations tried so far.
    pub fn patterns(&self) -> u64 {
        self.0.patterns
    }

    /// The table reads made so far.
    pub fn reads(&self) -> u64 {
        self.0.reads
    }

    /// The state as bytes, in the header's layout, little-endian.
    pub fn to_bytes(&self) -> [u8; State::BYTES] {
        let mut bytes = [0; State::BYTES];
        for (at, word) in self.words().into_iter().enumerate() {
            bytes[4 * at..4 * at + 4].copy_from_slice(&word.to_le_bytes());
        }
        bytes[40..48].copy_from_slice(&self.0.patterns.to_le_bytes());
        bytes[48..].copy_from_slice(&self.0.reads.to_le_bytes());
        bytes
    }

    /// The state of stored bytes. Any bytes will do: where they say nothing that exists in a frame and table, question 8 refuses
    /// the search.
    pub fn from_bytes(bytes: &[u8; State::BYTES]) -> State {
        let word = |at: usize| u32::from_le_bytes(std::array::from_fn(|i| bytes[4 * at + i]));
        let long = |at: usize| u64::from_le_bytes(std::array::from_fn(|i| bytes[at + i]));
        State(raw::State {
            phase: word(0),
            status: word(1),
            pass: word(2),
            four: [word(3), word(4), word(5), word(6)],
            key: word(7),
            probe: word(8),
            reserved: word(9),
            patterns: long(40),
            reads: long(48),
        })
    }

    /// The ten fields of 32 bits, in order.
    fn words(&self) -> [u32; 10] {
        let raw::State { phase, status, pass, four: [a, b, c, d], key, probe, reserved, .. } = self.0;
        [phase, status, pass, a, b, c, d, key, probe, reserved]
    }
}

impl Default for State {
    /// A fresh state.
    fn default() -> State {
        State::fresh()
    }
}
