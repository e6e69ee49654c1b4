//! The maker reaches every rule, what it makes is played the same way twice,
//! and the operand law holds over it.

use reference::board::run_script;
use reference::cover::{Counts, Cover};
use reference::law::LawRule;
use reference::make::{make_script, make_sequence, Options};
use reference::play::{check_law, cover, play};

const ALL: Options = Options { receipts: true, bad_lines: true, huge_memory: true };

#[test]
fn every_rule_is_used() {
    let mut total = Cover::new();
    for seed in 1..=48 {
        total.add(&cover(&make_sequence(seed, 5_000, ALL)));
    }
    print!("{}", total.table());
    assert_eq!(total.unused(), Vec::<&str>::new());
}

/// What the seeds must have met at least so often for the law to say much.
const LAW_FLOORS: &[(LawRule, u64)] = &[
    (LawRule::WindowOpened, 2_000),
    (LawRule::WindowClosedByHighByte, 50),
    (LawRule::WindowClosedByLowByte, 50),
    (LawRule::WindowClosedByWord, 500),
    (LawRule::WindowClosedByEqualValue, 100),
    (LawRule::CounterWriteNotMade, 20),
    (LawRule::ResetWhileLacking, 50),
    (LawRule::FailingStartWhileLacking, 20),
    (LawRule::CheckedAfterStepOfRun, 2_000),
    (LawRule::CheckedAfterStep, 20_000),
    (LawRule::CheckedAfterRefusal, 500),
    (LawRule::CheckedAfterEnd, 10_000),
    (LawRule::CheckedAfterDeviceEnd, 2_000),
    (LawRule::CheckedAfterError, 10_000),
    (LawRule::CheckedAfterReset, 2_000),
    (LawRule::CheckedAfterFailingStart, 1_000),
    (LawRule::CheckedLacking, 50_000),
    (LawRule::CheckedEqual, 50_000),
    (LawRule::NamedByOddEntry, 50),
    (LawRule::NamedByContinue, 200),
    (LawRule::NamedByOddContinue, 20),
    (LawRule::Delivered, 5_000),
    (LawRule::DeliveredMemoryToMemory, 1_000),
    (LawRule::DeliveredMemoryToDevice, 500),
    (LawRule::DeliveredDeviceToMemory, 500),
    (LawRule::DeliveredSingle, 500),
    (LawRule::DeliveredLong, 500),
    (LawRule::DeliveredAfterStore, 10),
    (LawRule::DroppedAfterWrite, 50),
    (LawRule::MemoryChangedByCycle, 2_000),
    (LawRule::MemoryChangedByStore, 2_000),
    (LawRule::EndedByDevice, 50),
    (LawRule::BusError9, 200),
    (LawRule::BusError10, 200),
    (LawRule::BusError11, 100),
    (LawRule::BusErrorInRun, 30),
    (LawRule::BusErrorInSingle, 30),
    (LawRule::BusErrorInsideOperand, 200),
    (LawRule::BusErrorAfterWrite, 30),
    (LawRule::BusErrorAfterDelivery, 100),
    (LawRule::BusErrorInLaterBlock, 50),
    (LawRule::BusErrorAbove24Bits, 200),
    (LawRule::BusErrorInsideEntry, 50),
    (LawRule::BusErrorInLaterEntry, 30),
    (LawRule::BusErrorBesideActive, 200),
    (LawRule::BusErrorBesideLatch, 30),
];

#[test]
fn the_law_holds() {
    let mut total = Counts::<LawRule>::new();
    for seed in 1..=48 {
        let law = check_law(&make_sequence(seed, 5_000, ALL));
        assert_eq!(law.breaches, Vec::<String>::new(), "seed {seed}");
        let operands = law.counts.count(LawRule::Delivered);
        assert!(operands > 100, "seed {seed}: {operands} operands");
        total.add(&law.counts);
    }
    print!("{}", total.table());
    assert_eq!(total.unused(), Vec::<&str>::new());
    for &(rule, floor) in LAW_FLOORS {
        assert!(total.count(rule) >= floor, "{rule:?}: {} times, not {floor}", total.count(rule));
    }
}

#[test]
fn a_seed_always_makes_the_same() {
    assert_eq!(make_sequence(7, 2_000, ALL), make_sequence(7, 2_000, ALL));
    assert_eq!(make_script(7, 500, ALL), make_script(7, 500, ALL));
    assert_ne!(make_sequence(7, 500, ALL), make_sequence(8, 500, ALL));
}

#[test]
fn options_leave_lines_out() {
    let options = Options { receipts: false, bad_lines: false, huge_memory: false };
    for seed in 1..=10 {
        let played = String::from_utf8(play(&make_sequence(seed, 3_000, options))).unwrap();
        for line in played.lines() {
            assert!(!line.starts_with("take") && !line.starts_with("close") && !line.ends_with("bad line"));
        }
        assert!(!played.starts_with("mem zero 1000000"));
        assert!(!make_script(seed, 500, options).lines().any(|line| line == "I"));
    }
}

#[test]
fn scripts_move_bytes() {
    for seed in 1..=10 {
        let (out, _) = run_script(make_script(seed, 800, ALL).as_bytes());
        assert!(out.lines().filter(|line| line.contains(" W ")).count() > 10, "seed {seed}");
    }
}
