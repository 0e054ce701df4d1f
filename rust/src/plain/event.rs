//! Events of the plain machine.

use crate::limits::{EVENT_BYTES, WORD_BYTES};

/// One event: a due integrator's new output or a commanded input's value.
#[derive(Clone, Copy, Debug, PartialEq, Eq)]
pub struct Event {
    /// When.
    pub tick: u64,
    /// The source number.
    pub source: usize,
    /// The new value.
    pub value: i64,
}

impl Event {
    /// "12 bytes each: tick, source, signed value."
    pub fn bytes(&self) -> [u8; EVENT_BYTES] {
        let tick = u32::try_from(self.tick).expect("a tick is at most the horizon");
        let source = u32::try_from(self.source).expect("there are at most 56 sources");
        let value = i32::try_from(self.value).expect("a value is within ±M");
        let mut bytes = [0; EVENT_BYTES];
        bytes[..WORD_BYTES].copy_from_slice(&tick.to_le_bytes());
        bytes[WORD_BYTES..2 * WORD_BYTES].copy_from_slice(&source.to_le_bytes());
        bytes[2 * WORD_BYTES..].copy_from_slice(&value.to_le_bytes());
        bytes
    }
}
