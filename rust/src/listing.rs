//! The listing program as a function from bytes to text.

use crate::calls::{Ran, SecondSimulator, Simulator};
use crate::engine::Engine;
use crate::limits::{ACCEPTED, EVENT_BYTES, LISTING_BUDGET, LISTING_INPUT, PAUSED, WORD_BYTES};
use crate::raw::RawState;
use crate::words::{signed_at, word_at};
use std::io::{self, Write};

/// What the program prints for its standard input.
pub fn listing(input: &[u8]) -> String {
    let mut text = Vec::new();
    write_listing(input, &mut text).expect("a vector takes all bytes");
    String::from_utf8(text).expect("the listing is text")
}

/// Prints the listing of the first 4,493 bytes of the input, with a write for each run: a plan may have
/// more events than fit the memory.
pub fn write_listing(input: &[u8], output: &mut impl Write) -> io::Result<()> {
    let file = &input[..input.len().min(LISTING_INPUT)];
    let loaded = SecondSimulator::default().load(file);
    match loaded.number {
        ACCEPTED => write_runs(loaded.state, output),
        number => {
            let refused = format!("refused {number} {}\n", loaded.entry);
            output.write_all(refused.as_bytes())
        }
    }
}

/// Runs lazily "with budget 64 until status 1 or 2".
fn write_runs(mut state: RawState, output: &mut impl Write) -> io::Result<()> {
    let events = LISTING_BUDGET as usize * state.plan.counts.events_per_instant();
    let mut buffer = vec![0; events * EVENT_BYTES];
    loop {
        let ran = SecondSimulator::default().run(Engine::Lazy, &state, LISTING_BUDGET, &mut buffer);
        assert_eq!(
            ran.number, ACCEPTED,
            "a declined run would be repeated for ever"
        );
        let events = buffer[..ran.written].chunks_exact(EVENT_BYTES);
        let lines: String = events.map(event_line).collect();
        output.write_all(lines.as_bytes())?;
        if ran.status != PAUSED {
            return output.write_all(end_line(&ran).as_bytes());
        }
        state = ran.state;
    }
}

fn event_line(event: &[u8]) -> String {
    let (tick, source) = (word_at(event, 0), word_at(event, WORD_BYTES));
    format!("{tick} {source} {}\n", signed_at(event, 2 * WORD_BYTES))
}

fn end_line(ran: &Ran) -> String {
    let clocks = &ran.state.run.clocks;
    format!(
        "end {} {} {} {}\n",
        ran.status, clocks.clock, clocks.instants, clocks.updates
    )
}
