//! What the programs `inspect` (`docs/image.md`), `trace` (`docs/stepper.md`), `listing` (`docs/listing.md`) and `timing`
//! (`docs/timing.md`) print.

use std::fmt::Write;

use crate::alu::Flags;
use crate::decode::{decode, Assembly, Instruction};
use crate::event::{Ending, Event, Stop};
use crate::image;
use crate::law::{Counts, Law};
use crate::memory::{Bank, ImageStore};
use crate::pipeline::{Clock, Core, Program};
use crate::stepper;

/// The words of the data memory that the programs lend to a routine.
pub const DATA_WORDS: usize = 1024;
/// The steps or clocks after which the programs end.
pub const LIMIT: usize = 10_000;

/// The data memory that a routine starts with.
pub fn fresh_data() -> Bank {
    Bank::new(vec![0; DATA_WORDS], 0)
}

/// The text of `inspect`: a line a word.
pub fn inspect(bytes: &[u8]) -> String {
    about(bytes, |words| {
        let lines = words.iter().zip((0..).step_by(4));
        lines
            .map(|(&word, address)| format!("{address:08x} {word:08x} {}\n", assembly(address, decode(word))))
            .collect()
    })
}

/// The text of `trace`: a line an event.
pub fn trace(bytes: &[u8]) -> String {
    about(bytes, |words| {
        let events = stepper::run(&ImageStore::new(words, 0), &mut fresh_data(), LIMIT);
        (1..).zip(&events).map(|(number, event)| trace_line(number, event)).collect()
    })
}

/// The text of `listing`: a line a clock.
pub fn listing(bytes: &[u8]) -> String {
    about(bytes, |words| {
        let program = Program::new(words, 0);
        let mut core = Core::new(&program, fresh_data());
        let lines = std::iter::from_fn(|| core.clock().ok().map(|clock| listing_line(&clock, core.slots())));
        lines.take(LIMIT).collect()
    })
}

/// The text of `timing`: a line an event, and the clocks that were lost.
pub fn timing(bytes: &[u8]) -> String {
    about(bytes, |words| {
        let program = Program::new(words, 0);
        let mut core = Core::new(&program, fresh_data());
        let clocks: Vec<Clock> = std::iter::from_fn(|| core.clock().ok()).take(LIMIT).collect();
        let handed: Vec<(u64, Event)> = clocks.iter().filter_map(|c| c.event.map(|event| (c.number, event))).collect();
        let events = stepper::run(&ImageStore::new(words, 0), &mut fresh_data(), handed.len());
        let mut law = Law::default();
        let mut text = "  clock      law  address   instruction               kind\n".to_string();
        let mut counts = None;
        for ((clock, event), stepped) in handed.iter().zip(&events) {
            let due = law.next(stepped);
            text += &timing_line(*clock, due.clock(), event);
            counts = Some(due);
        }
        text += &counts.map_or(String::new(), lost_lines);
        if !handed.last().is_some_and(|(_, event)| event.is_stop()) {
            text += &format!("not stopped after {} clocks\n", clocks.len());
        }
        text
    })
}

fn timing_line(clock: u64, due: u64, event: &Event) -> String {
    let instruction = assembly(event.address, event.instruction());
    let cause = event.stop().map_or(String::new(), |stop| format!(" {}", stop.cause()));
    format!("{clock:>7}  {due:>7}  {:08x}  {instruction:<24}  {}{cause}\n", event.address, kind(event))
}

fn lost_lines(counts: Counts) -> String {
    let Counts { l, t, p, q, .. } = counts;
    let lost = [
        ("stalls", l),
        ("taken branches", 2 * t),
        ("done writes of register 15", 4 * p),
        ("skipped writes of register 15", 2 * q),
    ];
    lost.iter().map(|(cause, clocks)| format!("lost to {cause}: {clocks}\n")).collect()
}

/// The clocks and steps of an image in `vectors`.
const VECTOR_LIMIT: usize = 200;

/// The text of `vectors` (`docs/vectors.md`) for a row of images.
pub fn vectors(mut row: &[u8]) -> String {
    let mut text = String::new();
    for number in 0.. {
        let Some((length, rest)) = row.split_first_chunk::<4>() else { break };
        let (image, rest) = rest.split_at(u32::from_le_bytes(*length) as usize);
        text += &format!("vector {number}\n{}", vector(image));
        row = rest;
    }
    text
}

fn vector(bytes: &[u8]) -> String {
    about(bytes, |words| {
        let program = Program::new(words, 0);
        let mut core = Core::new(&program, fresh_data());
        let lines = std::iter::from_fn(|| core.clock().ok().map(|clock| (clock.number, listing_line(&clock, core.slots()))));
        let clocks: Vec<(u64, String)> = lines.take(VECTOR_LIMIT).collect();
        let mut text: String = clocks.iter().map(|(_, line)| line.as_str()).collect();
        text += "registers";
        text.extend(core.registers().iter().map(|value| format!(" {value:08x}")));
        text += &format!("\nflags {} clocks {}\n", core.flags().bits(), clocks.len());
        let data = core.data().words().iter().zip((0u32..).step_by(4)).filter(|(&word, _)| word != 0);
        text.extend(data.map(|(word, address)| format!("data {address:08x} {word:08x}\n")));
        let events = stepper::run(&ImageStore::new(words, 0), &mut fresh_data(), VECTOR_LIMIT);
        text.extend((1..).zip(&events).map(|(number, event)| trace_line(number, event)));
        text
    })
}

/// The text about the words of an image, or the line of its refusal.
fn about(bytes: &[u8], text: impl FnOnce(&[u32]) -> String) -> String {
    match image::open(bytes) {
        Ok(words) => text(&words),
        Err(refusal) => format!("image {} {}\n", refusal.number(), refusal.place),
    }
}

fn assembly(address: u32, instruction: Option<Instruction>) -> String {
    match instruction {
        Some(instruction) => Assembly { address, instruction }.to_string(),
        None => "-".to_string(),
    }
}

/// The line of `trace` for one event.
pub fn trace_line(number: usize, event: &Event) -> String {
    let Event { address, word, flags, .. } = event;
    let instruction = assembly(*address, event.instruction());
    let (kind, flags) = (kind(event), letters(*flags));
    let mut line = format!("{number:>5}  {address:08x}  {word:08x}  {instruction:<24}  {kind:<7}  {flags}");
    if let Some(effect) = effect(event) {
        line += "  ";
        line += &effect;
    }
    line + "\n"
}

fn kind(event: &Event) -> &'static str {
    match event.ending {
        Ending::Done | Ending::Wrote { .. } | Ending::Stored { .. } => "done",
        Ending::Skipped => "skipped",
        Ending::Stopped(_) => "stop",
    }
}

fn letters(flags: Flags) -> String {
    let all = [(flags.n(), 'N'), (flags.z(), 'Z'), (flags.c(), 'C'), (flags.v(), 'V')];
    all.iter().map(|&(set, letter)| if set { letter } else { '-' }).collect()
}

fn effect(event: &Event) -> Option<String> {
    match event.ending {
        Ending::Wrote { register, value } => Some(format!("R{register} = {value:08x}")),
        Ending::Stored { address, word } => Some(format!("[{address:08x}] = {word:08x}")),
        Ending::Stopped(stop) => Some(stop_text(stop)),
        Ending::Done | Ending::Skipped => None,
    }
}

fn stop_text(stop: Stop) -> String {
    let mut text = format!("stop {}", stop.cause());
    if let Some(fault) = stop.fault() {
        text += &format!(": fault {} at {:08x}, tag {}", fault.cause as u32, fault.address, fault.tag);
    }
    text
}

fn listing_line(clock: &Clock, slots: [Option<u32>; 4]) -> String {
    let mut line = clock.number.to_string();
    for address in slots.into_iter().chain([clock.event.map(|event| event.address)]) {
        line += &match address {
            Some(address) => format!(" {address:08x}"),
            None => " -".to_string(),
        };
    }
    if let Some(stop) = clock.event.and_then(|event| event.stop()) {
        write!(line, "!{}", stop.cause()).expect("a string takes any text");
    }
    line + "\n"
}
