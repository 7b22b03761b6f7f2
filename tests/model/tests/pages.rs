//! The worked examples of the pages in `docs`.

use model::alu::{Condition, Flags, Operation};
use model::decode::{decode, encode, Action, Assembly, Instruction, Operand};
use model::event::{Ending, Event, HasStopped, Stop};
use model::image::{open, pack, seal, Reason, Refusal};
use model::law::{counts, Counts};
use model::memory::{Bank, Cause, Fault, ImageStore};
use model::pipeline::{Core, Origin, Program, Signals};
use model::stepper::{run, Stepper};
use model::text::{fresh_data, inspect, listing, trace, trace_line};

const LOAD: u32 = 0xE590_1000; // LDR R1, [R0]
const USE: u32 = 0xE081_2001; // ADD R2, R1, R1
const HERE: u32 = 0xEAFF_FFFE; // B to itself

fn text_of(address: u32, word: u32) -> String {
    decode(word).map_or("-".to_string(), |instruction| Assembly { address, instruction }.to_string())
}

// ---- image.md ----

#[test]
fn block_of_a_single_word() {
    let bytes = pack(&[HERE]);
    assert_eq!(bytes.len(), 512);
    assert_eq!(bytes[..8], [0x00, 0x00, 0x01, 0x00, 0xfe, 0xff, 0xff, 0xea]);
    assert!(bytes[8..508].iter().all(|&byte| byte == 0));
    assert_eq!(bytes[508..], [0x01, 0x00, 0xff, 0x14]);
    assert_eq!(open(&bytes), Ok(vec![HERE]));
}

#[test]
fn blocks_follow_one_another() {
    let routine: Vec<u32> = (0..300).collect();
    let bytes = pack(&routine);
    assert_eq!(bytes.len(), 3 * 512);
    assert_eq!(open(&bytes), Ok(routine));
}

fn refused(bytes: &[u8]) -> Option<(Reason, usize)> {
    open(bytes).err().map(|Refusal { reason, place }| (reason, place))
}

#[test]
fn refusals_of_lengths() {
    let most = pack(&vec![0; 64 * 126]);
    assert_eq!(most.len(), 32_768);
    assert_eq!(refused(&most), None);
    for bytes in [&[][..], &most[..511], &most[..513], &[&most[..], &[0; 512]].concat()] {
        assert_eq!(refused(bytes), Some((Reason::Length, 0)));
    }
}

/// Changes bytes of the last of three blocks and repairs the check word.
fn changed(changes: &[(usize, u8)]) -> Vec<u8> {
    let mut bytes = pack(&[1; 300]);
    for &(place, byte) in changes {
        bytes[1024 + place] = byte;
    }
    seal(&mut bytes[1024..]);
    bytes
}

#[test]
fn refusals_of_blocks() {
    assert_eq!(refused(&changed(&[])), None);
    assert_eq!(refused(&changed(&[(0, 3)])), Some((Reason::Place, 2)));
    assert_eq!(refused(&changed(&[(2, 0)])), Some((Reason::Count, 2)));
    assert_eq!(refused(&changed(&[(2, 127)])), Some((Reason::Count, 2)));
    assert_eq!(refused(&changed(&[(2, 47)])), Some((Reason::Filler, 2)));
    assert_eq!(refused(&changed(&[(507, 1)])), Some((Reason::Filler, 2)));
    assert_eq!(refused(&changed(&[(2, 126)])), None);
}

#[test]
fn the_earliest_fault_is_answered() {
    let mut all = changed(&[(0, 3), (2, 127), (507, 1)]);
    assert_eq!(refused(&all), Some((Reason::Place, 2)));
    all[1024 + 100] ^= 1;
    assert_eq!(refused(&all), Some((Reason::Check, 2)));
    all[512 + 2] = 125;
    seal(&mut all[512..1024]);
    assert_eq!(refused(&all), Some((Reason::Count, 1)));
    assert_eq!(inspect(&all), "image 4 1\n");
}

#[test]
fn nonsense_is_refused() {
    for text in [inspect, trace, listing] {
        assert_eq!(text(b"nonsense"), "image 1 0\n");
    }
}

#[test]
fn lines_of_inspect() {
    let bytes = pack(&[0x0081_2001, 0x0254_3005, 0x020E_F0FF, 0xE1A0_0001, HERE]);
    let expected = "\
00000000 00812001 ADDEQ R2, R1, R1
00000004 02543005 SUBSEQ R3, R4, #5
00000008 020ef0ff ANDEQ R15, R14, #255
0000000c e1a00001 -
00000010 eafffffe B 0x00000010
";
    assert_eq!(inspect(&bytes), expected);
}

// ---- instructions.md ----

#[test]
fn texts_of_words() {
    assert_eq!(text_of(0x1FC, 0xEA00_000A), "B 0x0000022c");
    assert_eq!(text_of(0x200, 0xEAFF_FFFE), "B 0x00000200");
    assert_eq!(text_of(0x204, 0xE1A0_0001), "-");
    assert_eq!(text_of(0, 0xE081_2001), "ADD R2, R1, R1");
    assert_eq!(text_of(0, 0xE081_2081), "-");
    assert_eq!(text_of(0, 0xE59A_9FFF), "LDR R9, [R10, #4095]");
    assert_eq!(text_of(0, 0xE58B_F000), "STR R15, [R11]");
    assert_eq!(text_of(0, 0xE350_00FF), "CMP R0, #255");
}

#[test]
fn words_at_the_edge_of_the_subset() {
    let inside = |word| decode(word).is_some();
    assert!(inside(0xE280_F001) && !inside(0xE290_F001)); // S with register 15
    assert!(inside(0xE150_0001) && !inside(0xE150_1001) && !inside(0xE140_0001)); // CMP: Rd and S
    assert!(inside(0xE281_00FF) && !inside(0xE281_01FF)); // a rotated constant
    assert!(inside(0xE081_000F) && !inside(0xE081_001F)); // a shifted register
    assert!(!inside(0xE5D9_0000) && !inside(0xE519_0000)); // LDRB, and a negative offset
    assert!(!inside(0xEB00_0000) && !inside(0xFA00_0000)); // BL, and condition 15
}

#[test]
fn instructions_without_a_word() {
    let always = |action| encode(Instruction { condition: Condition::Always, action });
    let data = |operation, sets_flags, destination| {
        always(Action::Data { operation, sets_flags, destination, first: 1, second: Operand::Constant(1) })
    };
    assert_eq!(always(Action::Load { destination: 1, base: 1, offset: 4096 }), None);
    assert_eq!(always(Action::Branch { distance: 8_388_608 }), None);
    assert_eq!(always(Action::Branch { distance: -8_388_609 }), None);
    assert_eq!(always(Action::Branch { distance: -8_388_608 }), Some(0xEA80_0000));
    assert_eq!(data(Operation::Cmp, false, 0), None);
    assert_eq!(data(Operation::Cmp, true, 1), None);
    assert_eq!(data(Operation::Add, true, 15), None);
    assert_eq!(data(Operation::Add, false, 15), Some(0xE281_F001));
}

/// Every word that decodes is encoded again, over a stride that meets all values of all fields.
#[test]
fn coding_is_exact() {
    for word in (0..=u32::MAX).step_by(1009) {
        let Some(instruction) = decode(word) else { continue };
        assert_eq!(encode(instruction), Some(word));
        let [first, second] = instruction.sources();
        let is_branch = matches!(instruction.action, Action::Branch { .. });
        let is_store = matches!(instruction.action, Action::Store { .. });
        assert_eq!(first, if is_branch { 15 } else { word >> 16 & 15 });
        assert_eq!(second, if is_store { word >> 12 & 15 } else { word & 15 });
    }
}

#[test]
fn flags_of_sums_and_differences() {
    let apply =
        |operation: Operation, first, second| operation.apply(first, second, Flags::new(false, false, true, true));
    assert_eq!(apply(Operation::Add, 0x7FFF_FFFF, 1), (0x8000_0000, Flags::new(true, false, false, true)));
    assert_eq!(apply(Operation::Add, 0xFFFF_FFFF, 1), (0, Flags::new(false, true, true, false)));
    assert_eq!(apply(Operation::Sub, 0, 1), (0xFFFF_FFFF, Flags::new(true, false, false, false)));
    assert_eq!(apply(Operation::Cmp, 0x8000_0000, 1), (0x7FFF_FFFF, Flags::new(false, false, true, true)));
    assert_eq!(apply(Operation::And, 1, 2), (0, Flags::new(false, true, true, true)));
    assert_eq!(apply(Operation::Orr, 0x8000_0000, 2), (0x8000_0002, Flags::new(true, false, true, true)));
}

#[test]
fn conditions_come_in_opposite_pairs() {
    for bits in 0..16 {
        let flags = Flags::new(bits & 8 != 0, bits & 4 != 0, bits & 2 != 0, bits & 1 != 0);
        assert_eq!(flags.bits(), bits);
        for pair in Condition::ALL.chunks_exact(2) {
            assert_ne!(pair[0].holds(flags), pair[1].holds(flags));
        }
        assert_eq!(Condition::Hi.holds(flags), flags.c() && !flags.z());
        assert_eq!(Condition::Gt.holds(flags), !flags.z() && flags.n() == flags.v());
        assert!(Condition::Always.holds(flags));
    }
}

// ---- memories.md ----

#[test]
fn faults_of_memories() {
    let fault = |cause, address| Fault { cause, address, tag: 7 };
    let mut bank = Bank::new(vec![5, 6], 7);
    assert_eq!(bank.read(4), Ok(6));
    assert_eq!(bank.read(9), Err(fault(Cause::Unaligned, 9)));
    assert_eq!(bank.write(8, 1), Err(fault(Cause::Unmapped, 8)));
    assert_eq!(bank.write(4, 1), Ok(()));
    assert_eq!(bank.words(), [5, 1]);
    assert_eq!(ImageStore::new(&[1], 7).read(0xFFFF_FFFC), Err(fault(Cause::Unmapped, 0xFFFF_FFFC)));
}

// ---- stepper.md ----

/// The lines that the page shows of the sample.
#[test]
fn lines_of_the_page() {
    let set = |letters: &str| Flags::new(letters.contains('N'), letters.contains('Z'), letters.contains('C'), false);
    let line =
        |number, address, word, flags, ending| trace_line(number, &Event { address, word, flags: set(flags), ending });
    let wrote = |register, value| Ending::Wrote { register, value };
    let stored = Ending::Stored { address: 0, word: 0x1E };
    let lost = Ending::Stopped(Stop::Fetch(Fault { cause: Cause::Unmapped, address: 0x70, tag: 0 }));
    let lines = [
        line(13, 0x18, 0xE352_0018, "N", Ending::Done),
        line(14, 0x1C, 0x1AFF_FFFA, "N", Ending::Done),
        line(19, 0x1C, 0x1AFF_FFFA, "ZC", Ending::Skipped),
        line(20, 0x20, 0xE28E_F000, "ZC", wrote(15, 0x3C)),
        line(21, 0x3C, 0xE250_0019, "C", wrote(0, 0x1E)),
        line(22, 0x40, 0x428C_0000, "C", Ending::Skipped),
        line(26, 0x50, 0xE58C_3000, "C", stored),
        line(33, 0x70, 0, "N", lost),
    ];
    let expected = "   13  00000018  e3520018  CMP R2, #24               done     N---
   14  0000001c  1afffffa  BNE 0x0000000c            done     N---
   19  0000001c  1afffffa  BNE 0x0000000c            skipped  -ZC-
   20  00000020  e28ef000  ADD R15, R14, #0          done     -ZC-  R15 = 0000003c
   21  0000003c  e2500019  SUBS R0, R0, #25          done     --C-  R0 = 0000001e
   22  00000040  428c0000  ADDMI R0, R12, #0         skipped  --C-
   26  00000050  e58c3000  STR R3, [R12]             done     --C-  [00000000] = 0000001e
   33  00000070  00000000  -                         stop     N---  stop 20: fault 11 at 00000070, tag 0
";
    assert_eq!(lines.concat(), expected);
}

/// A routine that passes through lines like those of the sample, at other addresses.
#[test]
fn lines_of_trace() {
    let bytes = pack(&[
        0xE282_2017,
        0xE352_0018,
        0x1A00_0000,
        0xE281_1001,
        0xE282_2001,
        0xE352_0018,
        0x1AFF_FFFA,
        0xE28E_F024,
        0xE1A0_0001,
        0xE250_0019,
        0x428C_0000,
        0xE58C_2000,
        0xE59C_1000,
        0xE59C_3002,
    ]);
    let expected = "    1  00000000  e2822017  ADD R2, R2, #23           done     ----  R2 = 00000017
    2  00000004  e3520018  CMP R2, #24               done     N---
    3  00000008  1a000000  BNE 0x00000010            done     N---
    4  00000010  e2822001  ADD R2, R2, #1            done     N---  R2 = 00000018
    5  00000014  e3520018  CMP R2, #24               done     -ZC-
    6  00000018  1afffffa  BNE 0x00000008            skipped  -ZC-
    7  0000001c  e28ef024  ADD R15, R14, #36         done     -ZC-  R15 = 00000024
    8  00000024  e2500019  SUBS R0, R0, #25          done     N---  R0 = ffffffe7
    9  00000028  428c0000  ADDMI R0, R12, #0         done     N---  R0 = 00000000
   10  0000002c  e58c2000  STR R2, [R12]             done     N---  [00000000] = 00000018
   11  00000030  e59c1000  LDR R1, [R12]             done     N---  R1 = 00000018
   12  00000034  e59c3002  LDR R3, [R12, #2]         stop     N---  stop 22: fault 10 at 00000002, tag 0
";
    assert_eq!(trace(&bytes), expected);
}

#[test]
fn stops_of_trace() {
    let line = "    1  00000000  e1a00001  -                         stop     ----  stop 21\n";
    assert_eq!(trace(&pack(&[0xE1A0_0001])), line);
    let line =
        "    2  00000010  00000000  -                         stop     ----  stop 20: fault 11 at 00000010, tag 0\n";
    assert!(trace(&pack(&[0xEA00_0002])).ends_with(line));
    let line =
        "    2  00000009  00000000  -                         stop     ----  stop 20: fault 10 at 00000009, tag 0\n";
    assert!(trace(&pack(&[0xE28F_F001])).ends_with(line));
}

/// A word outside the subset stops the routine even where its condition does not hold.
#[test]
fn conditions_of_words_outside_do_not_matter() {
    let events = run(&ImageStore::new(&[0x01A0_0001], 0), &mut fresh_data(), 10);
    assert_eq!(events.len(), 1);
    assert_eq!(events[0].ending, Ending::Stopped(Stop::Outside));
}

#[test]
fn a_stopped_stepper_refuses_to_step() {
    let store = ImageStore::new(&[], 0);
    let mut stepper = Stepper::new();
    assert!(stepper.step(&store, &mut fresh_data()).is_ok());
    let before = stepper.clone();
    assert_eq!(stepper.step(&store, &mut fresh_data()), Err(HasStopped));
    assert_eq!(stepper, before);
    assert_eq!(HasStopped::NUMBER, 6);
}

#[test]
fn trace_and_listing_end_by_themselves() {
    assert_eq!(trace(&pack(&[HERE])).lines().count(), 10_000);
    assert_eq!(listing(&pack(&[HERE])).lines().count(), 10_000);
}

// ---- listing.md ----

#[test]
fn listing_of_a_load_and_its_use() {
    let expected = "\
1 00000000 - - - -
2 00000004 00000000 - - -
3 00000004 - 00000000 - -
4 00000008 00000004 - 00000000 -
5 0000000c 00000008 00000004 - 00000000
6 00000010 0000000c 00000008 00000004 -
7 - - - 00000008 00000004
8 - - - - 00000008!20
";
    assert_eq!(listing(&pack(&[LOAD, USE])), expected);
}

/// A branch to the highest address: the fetch address goes on at 0.
#[test]
fn fetch_address_wraps_around() {
    let expected = "\
1 00000000 - - - -
2 00000004 00000000 - - -
3 - - 00000000 - -
4 fffffffc - - 00000000 -
5 00000000 fffffffc - - 00000000
6 00000004 00000000 fffffffc - -
7 - - - fffffffc -
8 - - - - fffffffc!20
";
    assert_eq!(listing(&pack(&[0xEAFF_FFFD])), expected);
}

// ---- pipeline.md ----

fn signals_of(words: &[u32]) -> Vec<Signals> {
    let program = Program::new(words, 0);
    let mut core = Core::new(&program, fresh_data());
    std::iter::from_fn(|| core.clock().ok().map(|clock| clock.signals)).take(100).collect()
}

#[test]
fn signals_of_a_load_and_its_use() {
    let signals = signals_of(&[LOAD, USE]);
    let quiet = Signals::default();
    let stall = Signals { stall: true, ..quiet };
    let forward = Signals { first: Origin::Writeback, second: Origin::Writeback, ..quiet };
    assert_eq!(signals, [quiet, quiet, stall, quiet, forward, quiet, quiet, quiet]);
}

#[test]
fn signals_of_jumps() {
    let quiet = Signals::default();
    let pending = Signals { write_pending: true, ..quiet };
    let written = Signals { pc_written: true, ..quiet };
    let signals = signals_of(&[0xE28F_F000]); // ADD R15, R15, #0
    assert_eq!(signals[..6], [quiet, pending, pending, pending, written, quiet]);
    let signals = signals_of(&[0x028F_F000]); // the same, skipped
    assert_eq!(signals[..5], [quiet, pending, pending, quiet, quiet]);
    let taken = Signals { branch_taken: true, ..quiet };
    let signals = signals_of(&[0xEA00_0000]);
    assert_eq!(signals[..4], [quiet, quiet, taken, quiet]);
    // The write of register 15 behind a taken branch is pending and does not hold Fetch back.
    let signals = signals_of(&[0xEA00_0000, 0xE28F_F000, 0xE281_1001]);
    assert_eq!(signals[..4], [quiet, quiet, Signals { write_pending: true, ..taken }, quiet]);
}

/// The instruction behind a load that faults does not change the flags.
#[test]
fn flags_stay_behind_a_fault() {
    let program = Program::new(&[0xE590_1001, 0xE250_0001], 0);
    let mut core = Core::new(&program, fresh_data());
    while core.clock().is_ok() {}
    assert!(core.has_stopped());
    assert_eq!(core.flags(), Flags::default());
    assert_eq!(core.slots(), [None; 4]);
}

// ---- lateness.md ----

#[test]
fn counts_of_the_law() {
    // LDR R1, [R0]; ADD R2, R1, R1; ADDEQ R15, R15, #0; ADD R15, R15, #0; (passed over); B over one; (passed over).
    let words = [LOAD, USE, 0x028F_F000, 0xE28F_F000, 0, 0xEA00_0000, 0];
    let events = run(&ImageStore::new(&words, 0), &mut fresh_data(), 100);
    let last = counts(&events, events.len());
    assert_eq!(last, Counts { n: 6, l: 1, t: 1, p: 1, q: 1 });
    assert_eq!(last.clock(), 6 + 4 + 1 + 2 + 4 + 2);
    assert_eq!(listing(&pack(&words)).lines().last(), Some("19 - - - - 0000001c!20"));
}

/// An event without an instruction waits for nothing, whatever its word.
#[test]
fn nothing_waits_at_a_stop() {
    for words in [&[0xE590_0000][..], &[0xE590_0000, 0xE1A0_0000]] {
        let events = run(&ImageStore::new(words, 0), &mut fresh_data(), 100);
        assert_eq!(counts(&events, 2).clock(), 6);
    }
}
