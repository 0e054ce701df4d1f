//! The files in the folder `plans`, and the two programs.

mod common;

use common::{listing_by_plain, refusal};
use cup_check::file::{encode, read};
use cup_check::generate::{Family, Rng};
use cup_check::limits::LISTING_BUDGET;
use cup_check::listing::{listing, write_listing};
use cup_check::plain::Plain;
use cup_check::samples;
use std::fs;
use std::io::{self, Write};
use std::path::{Path, PathBuf};
use std::process::{Command, Stdio};

fn plans_folder() -> PathBuf {
    Path::new(env!("CARGO_MANIFEST_DIR")).join("../plans")
}

fn kept_file(name: &str, ending: &str) -> Vec<u8> {
    let path = plans_folder().join(name).with_extension(ending);
    fs::read(&path).unwrap_or_else(|error| panic!("{}: {error}", path.display()))
}

/// What the listing program prints.
fn printed(input: &[u8]) -> String {
    let mut program = Command::new(env!("CARGO_BIN_EXE_listing"))
        .stdin(Stdio::piped())
        .stdout(Stdio::piped())
        .spawn()
        .expect("the program starts");
    let mut stdin = program.stdin.take().expect("it is piped");
    // The program does not read beyond its limit, so a long input may meet a closed pipe.
    let _ = stdin.write_all(input);
    drop(stdin);
    let output = program.wait_with_output().expect("the program ends");
    assert!(output.status.success());
    String::from_utf8(output.stdout).expect("the listing is text")
}

#[test]
fn the_program_makes_the_files_that_are_kept() {
    let folder = Path::new(env!("CARGO_TARGET_TMPDIR")).join("plans");
    fs::create_dir_all(&folder).expect("a folder for the test");
    let status = Command::new(env!("CARGO_BIN_EXE_make_plans"))
        .arg(&folder)
        .status()
        .expect("the program starts");
    assert!(status.success());
    for sample in samples::all() {
        for ending in ["plan", "txt"] {
            let made = fs::read(folder.join(sample.name).with_extension(ending)).expect("made");
            assert_eq!(
                made,
                kept_file(sample.name, ending),
                "{}.{ending}",
                sample.name
            );
        }
    }
}

#[test]
fn no_other_plans_are_kept() {
    let is_plan = |path: &PathBuf| path.extension().is_some_and(|ending| ending == "plan");
    let files = fs::read_dir(plans_folder()).expect("the folder is there");
    let paths = files.map(|file| file.expect("readable").path());
    assert_eq!(paths.filter(is_plan).count(), samples::all().len());
}

#[test]
fn each_plan_ends_as_described() {
    let ends = [
        ("sample", "end 1 6 2 3"),
        ("chain", "end 1 569 101 199"),
        ("kinds", "end 1 487 103 206"),
        ("overflow", "end 2 57 53 56"),
        ("long", "end 1 2000000000 134 148"),
        ("full", "end 1 399 128 1194"),
        ("refused", "refused 8 4"),
    ];
    assert_eq!(ends.len(), samples::all().len());
    for (name, end) in ends {
        let text = listing(&kept_file(name, "plan"));
        assert_eq!(text.lines().last(), Some(end), "{name}");
        assert!(text.lines().count() <= 200, "{name}");
        assert_eq!(text.as_bytes(), kept_file(name, "txt"), "{name}");
    }
}

#[test]
fn the_plain_machine_tells_the_same_listings() {
    for sample in samples::all() {
        if let Ok(plan) = read(&sample.file) {
            let expected = listing_by_plain(&plan, 100_000).expect("every sample ends");
            assert_eq!(listing(&sample.file), expected, "{}", sample.name);
        }
    }
}

#[test]
fn the_full_plan_uses_every_section_to_its_limit() {
    let plan = read(&kept_file("full", "plan")).expect("it is accepted");
    assert_eq!(plan.integrators.len(), 32);
    assert_eq!(plan.inputs.len(), 8);
    assert_eq!(plan.nodes.len(), 16);
    assert_eq!(plan.links.len(), 256);
    assert_eq!(plan.commands.len(), 64);
}

#[test]
fn the_program_prints_the_listing() {
    for name in ["sample", "kinds", "overflow", "refused"] {
        assert_eq!(
            printed(&kept_file(name, "plan")).as_bytes(),
            kept_file(name, "txt")
        );
    }
    assert_eq!(printed(b""), "refused 1 0\n");
}

/// Takes a number of writes, then fails.
struct FailingOutput {
    left: usize,
    taken: Vec<u8>,
}

impl Write for FailingOutput {
    fn write(&mut self, bytes: &[u8]) -> io::Result<usize> {
        let left = self.left.checked_sub(1);
        self.left = left.ok_or(io::ErrorKind::BrokenPipe)?;
        self.taken.write(bytes)
    }

    fn flush(&mut self) -> io::Result<()> {
        Ok(())
    }
}

#[test]
fn the_listing_is_written_run_by_run() {
    let file = kept_file("chain", "plan");
    let mut output = FailingOutput {
        left: 1,
        taken: Vec::new(),
    };
    let written = write_listing(&file, &mut output);
    assert!(written.is_err());
    let plan = read(&file).expect("it is accepted");
    let mut first_run = Plain::start(&plan);
    first_run.run(u128::from(LISTING_BUDGET));
    let lines = output.taken.iter().filter(|&&byte| byte == b'\n').count();
    assert_eq!(lines, first_run.events.len());
    assert!(kept_file("chain", "txt").starts_with(&output.taken));
}

#[test]
fn the_listing_loads_no_more_than_4493_bytes() {
    let full = encode(&Family::Full.plan(&mut Rng::new(2)));
    assert_eq!(full.len(), 4_492);
    assert!(!printed(&full).starts_with("refused"));
    // One byte too many is read and refused, and so is anything longer.
    for more in [1, 2, 100_000] {
        let long = [&full[..], &vec![0; more]].concat();
        assert_eq!(listing(&long), "refused 2 0\n");
        assert_eq!(printed(&long), "refused 2 0\n");
    }
    // Pairs that describe 5,004 bytes: what the program reads ends before them.
    let mut sections = cup_check::file::encoding::section_bytes(&read(&full).expect("accepted"));
    sections[4].resize(64 * 12 + 512, 0);
    let whole = cup_check::file::encoding::assemble(9, &sections);
    assert_eq!(refusal(&whole), (3, 0));
    assert_eq!(listing(&whole), "refused 2 0\n");
}
