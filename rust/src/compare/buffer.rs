//! Buffers whose bytes tell whether they were written to.

/// Bytes before and behind a buffer that have to keep their value too.
const MARGIN: usize = 16;

/// The bytes that a buffer and what lies around it are filled with, over and over. Their number is
/// prime, so that an event written at another place meets other ones.
const MARKS: [u8; 251] = {
    let mut marks = [0; 251];
    let mut place = 0;
    while place < marks.len() {
        marks[place] = place as u8 ^ 0x5a;
        place += 1;
    }
    marks
};

/// A buffer for a call.
pub struct MarkedBuffer {
    bytes: Vec<u8>,
    length: usize,
}

impl MarkedBuffer {
    /// A buffer of this length, filled.
    pub fn new(length: usize) -> MarkedBuffer {
        let bytes = marks(length + 2 * MARGIN);
        MarkedBuffer { bytes, length }
    }

    /// The buffer as a call is handed it.
    pub fn handed(&mut self) -> &mut [u8] {
        &mut self.bytes[MARGIN..MARGIN + self.length]
    }

    /// The first bytes of the buffer; `None` if it has fewer.
    pub fn first(&self, written: usize) -> Option<&[u8]> {
        let buffer = &self.bytes[MARGIN..MARGIN + self.length];
        buffer.get(..written)
    }

    /// The first byte outside what was written, behind it or around the buffer, that has another value
    /// than before, counted from the buffer's start.
    pub fn changed_outside(&self, written: usize) -> Option<i64> {
        let before = marks(self.bytes.len());
        let kept = [0..MARGIN, MARGIN + written..self.bytes.len()];
        if kept
            .iter()
            .all(|kept| self.bytes[kept.clone()] == before[kept.clone()])
        {
            return None;
        }
        let mut kept = kept.into_iter().flatten();
        let place = kept.find(|&place| self.bytes[place] != before[place]);
        place.map(|place| place as i64 - MARGIN as i64)
    }
}

fn marks(length: usize) -> Vec<u8> {
    let mut marks = MARKS.repeat(length.div_ceil(MARKS.len()));
    marks.truncate(length);
    marks
}

#[cfg(test)]
mod tests {
    use super::*;

    #[test]
    fn every_byte_behind_what_is_written_and_around_is_looked_at() {
        for place in 0..MARGIN + 40 + MARGIN {
            let mut buffer = MarkedBuffer::new(40);
            assert_eq!(buffer.changed_outside(24), None);
            buffer.bytes[place] ^= 1;
            let from_start = place as i64 - MARGIN as i64;
            let written = (0..24).contains(&from_start);
            let found = (!written).then_some(from_start);
            assert_eq!(buffer.changed_outside(24), found);
        }
    }

    #[test]
    fn the_first_bytes_are_those_that_a_call_is_handed() {
        let mut buffer = MarkedBuffer::new(5);
        buffer.handed().copy_from_slice(&[1, 2, 3, 4, 5]);
        assert_eq!(buffer.first(3), Some(&[1, 2, 3][..]));
        assert_eq!(buffer.first(6), None);
    }
}
