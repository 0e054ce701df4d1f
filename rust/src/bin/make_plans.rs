//! Writes the sample plans and their listings to the folder named by the first argument.

use cup_check::listing::listing;
use cup_check::samples;
use std::path::Path;
use std::{env, fs, io};

fn main() -> io::Result<()> {
    let Some(folder) = env::args_os().nth(1) else {
        eprintln!("usage: make_plans FOLDER");
        std::process::exit(2);
    };
    for sample in samples::all() {
        let path = Path::new(&folder).join(sample.name);
        fs::write(path.with_extension("plan"), &sample.file)?;
        fs::write(path.with_extension("txt"), listing(&sample.file))?;
    }
    Ok(())
}
