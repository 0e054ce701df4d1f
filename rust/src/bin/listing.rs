//! Reads a plan from standard input and prints its listing.

use cup_check::limits::LISTING_INPUT;
use cup_check::listing::write_listing;
use std::io::{self, Read};

fn main() -> io::Result<()> {
    let mut input = Vec::new();
    io::stdin()
        .take(LISTING_INPUT as u64)
        .read_to_end(&mut input)?;
    write_listing(&input, &mut io::stdout().lock())
}
