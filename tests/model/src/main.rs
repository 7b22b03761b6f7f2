//! The command line of the model.

use std::error::Error;
use std::fs;
use std::io::{self, Read, Write};
use std::path::Path;
use std::process::ExitCode;

use model::check::{check, Outcome, Run, CLOCK_LIMIT};
use model::{gen, text};

const USAGE: &str = "usage: model inspect|trace|listing|timing < IMAGE
       model vectors SEED COUNT > ROW
       model answers < ROW
       model gen SEED COUNT DIR
       model check [SEED [COUNT]]";

fn main() -> ExitCode {
    let arguments: Vec<String> = std::env::args().skip(1).collect();
    let arguments: Vec<&str> = arguments.iter().map(String::as_str).collect();
    match run(&arguments) {
        Ok(()) => ExitCode::SUCCESS,
        Err(error) => {
            eprintln!("{error}");
            ExitCode::FAILURE
        }
    }
}

fn run(arguments: &[&str]) -> Result<(), Box<dyn Error>> {
    match *arguments {
        ["inspect"] => print_about(text::inspect),
        ["trace"] => print_about(text::trace),
        ["listing"] => print_about(text::listing),
        ["timing"] => print_about(text::timing),
        ["vectors", seed, count] => write_row(seed.parse()?, count.parse()?),
        ["answers"] => print_about(text::vectors),
        ["gen", seed, count, directory] => generate(seed.parse()?, count.parse()?, Path::new(directory)),
        ["check"] => check_many(1, 10_000),
        ["check", seed] => check_many(seed.parse()?, 10_000),
        ["check", seed, count] => check_many(seed.parse()?, count.parse()?),
        _ => Err(USAGE.into()),
    }
}

/// Prints a text about the image on standard input.
fn print_about(text: fn(&[u8]) -> String) -> Result<(), Box<dyn Error>> {
    let mut bytes = Vec::new();
    io::stdin().read_to_end(&mut bytes)?;
    io::stdout().write_all(text(&bytes).as_bytes())?;
    Ok(())
}

/// Writes a row of images, each behind its length, for the program `vectors`. Long ones are passed over, so that the row
/// and its answers stay small.
fn write_row(seed: u64, count: usize) -> Result<(), Box<dyn Error>> {
    let images = (0..).map(|index| gen::image(seed, index)).filter(|image| image.len() <= 1024);
    let mut out = io::stdout().lock();
    for image in images.take(count) {
        out.write_all(&(image.len() as u32).to_le_bytes())?;
        out.write_all(&image)?;
    }
    Ok(())
}

fn generate(seed: u64, count: u64, directory: &Path) -> Result<(), Box<dyn Error>> {
    fs::create_dir_all(directory)?;
    for index in 0..count {
        fs::write(directory.join(format!("{index:04}.image")), gen::image(seed, index))?;
    }
    Ok(())
}

/// Checks images by chance and says what they were like.
fn check_many(seed: u64, count: u64) -> Result<(), Box<dyn Error>> {
    let mut tally = Tally::default();
    for index in 0..count {
        match check(&gen::image(seed, index)) {
            Ok(outcome) => tally.take(outcome),
            Err(difference) => return Err(format!("image {index} of seed {seed}: {difference}").into()),
        }
    }
    print!("{tally}");
    Ok(())
}

/// What came of many images.
#[derive(Default)]
struct Tally {
    refused: [u64; 6],
    stopped: [u64; 3],
    endless: u64,
    /// Runs of fewer than 20 clocks, of 20 to 400, and of more.
    lengths: [u64; 3],
    events: u64,
    clocks: u64,
    late: [u64; 4],
}

impl Tally {
    fn take(&mut self, outcome: Outcome) {
        match outcome {
            Outcome::Refused(refusal) => self.refused[refusal.number() as usize] += 1,
            Outcome::Ran(run) => self.take_run(run),
        }
    }

    fn take_run(&mut self, run: Run) {
        match run.stop {
            Some(cause) => self.stopped[cause as usize - 20] += 1,
            None => self.endless += 1,
        }
        let length = if run.clocks < 20 { 0 } else { 1 + (run.clocks > 400) as usize };
        self.lengths[length] += 1;
        self.clocks += run.clocks;
        self.events += run.counts.n;
        let counts = [run.counts.l, run.counts.t, run.counts.p, run.counts.q];
        self.late.iter_mut().zip(counts).for_each(|(sum, count)| *sum += count);
    }
}

impl std::fmt::Display for Tally {
    fn fmt(&self, out: &mut std::fmt::Formatter<'_>) -> std::fmt::Result {
        let [_, length, check, place, count, filler] = self.refused;
        writeln!(out, "refused: length {length}, check word {check}, place {place}, count {count}, filler {filler}")?;
        let [fetch, outside, access] = self.stopped;
        writeln!(out, "stopped: fetch {fetch}, outside {outside}, access {access}")?;
        writeln!(out, "not stopped after {CLOCK_LIMIT} clocks: {}", self.endless)?;
        let [short, medium, long] = self.lengths;
        writeln!(out, "clocks of a run: below 20 {short}, 20 to 400 {medium}, above 400 {long}")?;
        let [l, t, p, q] = self.late;
        writeln!(out, "{} events in {} clocks: L {l}, T {t}, P {p}, Q {q}", self.events, self.clocks)?;
        writeln!(out, "the core agrees with the stepper and the clock law")
    }
}
