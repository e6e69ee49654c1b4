//! The checker of the operand law reports what is changed behind its back,
//! and only that.

use reference::controller::{Channel, Phase};
use reference::law::{Law, Sight};
use reference::play::{Call, Player};
use reference::step::Answer;

/// Three words from memory to memory on channel 0.
const THREE_WORDS: &[&str] = &[
    "mem flat 000102030405060708090A0B0C0D0E0F101112131415161718191A1B1C1D1E1F",
    "bank tape:C0C1C2C3 printer:4 tape:- tape:-",
    "trace 8",
    "wb 04 08",
    "wb 05 11",
    "wb 06 05",
    "ww 0A 0003",
    "ww 16 0010",
    "wb 07 80",
];

/// Three bytes from memory to the printer of channel 1, by an array of one
/// entry, which is the first one in memory.
const TO_PRINTER: &[&str] = &[
    "mem flat 000000060003AABBCC0D0E0F101112131415161718191A1B1C1D1E1F20212223",
    "bank tape:C0C1C2C3 printer:4 tape:- tape:-",
    "trace 8",
    "wb 44 10",
    "wb 45 09",
    "wb 46 04",
    "ww 5A 0001",
    "wb 47 80",
];

fn play(player: &mut Player, lines: &[&str]) {
    for line in lines {
        let answer = player.answer(line.as_bytes());
        assert!(answer != "bad line" && !answer.starts_with("refused"), "{line}: {answer}");
    }
}

/// What is reported if something changes between two groups of lines.
fn reported(before: &[&[&str]], change: impl Fn(&mut Player), after: &[&str]) -> Vec<String> {
    let mut player = Player::with_law();
    for lines in before {
        play(&mut player, lines);
    }
    assert_eq!(player.law().unwrap().breaches, Vec::<String>::new());
    change(&mut player);
    play(&mut player, after);
    player.finish();
    player.law().unwrap().breaches.clone()
}

fn assert_reports(breaches: &[String], what: &str) {
    assert!(breaches.iter().any(|breach| breach.contains(what)), "not reported: {what}, but {breaches:?}");
}

fn channel(player: &mut Player, number: usize) -> &mut Channel {
    &mut player.controller.channels[number]
}

#[test]
fn nothing_is_reported_of_what_is_left_alone() {
    assert_eq!(reported(&[THREE_WORDS], |_| {}, &["run 3", "step 5 0", "step 0 0", "wb 07 80"]), Vec::<String>::new());
    assert_eq!(reported(&[TO_PRINTER], |_| {}, &["run 2", "step 5 0"]), Vec::<String>::new());
    assert_eq!(reported(&[TO_PRINTER], |_| {}, &["run 100"]), Vec::<String>::new());
}

#[test]
fn the_counter_is_watched_until_it_is_written() {
    let tamper = |player: &mut Player| channel(player, 0).transfer_count = 7;
    let lists = "the lists do not differ by what the counter shows";
    assert_reports(&reported(&[THREE_WORDS], tamper, &["gcr"]), lists);
    assert_reports(&reported(&[THREE_WORDS, &["run 2", "step 5 0"]], tamper, &["gcr"]), lists);
    assert_reports(&reported(&[THREE_WORDS, &["step 0 0"]], tamper, &["gcr"]), lists);
    // A start that fails and a write that is not made leave it watched.
    assert_reports(&reported(&[THREE_WORDS, &["wb 07 80"]], tamper, &["gcr"]), lists);
    assert_reports(&reported(&[THREE_WORDS, &["wb 0A 00"]], tamper, &["gcr"]), lists);
    // A write that is made ends it, also of one half and of an equal value.
    assert!(reported(&[THREE_WORDS, &["step 0 0", "wb 0A 00"]], tamper, &["gcr"]).is_empty());
    assert!(reported(&[THREE_WORDS, &["step 0 0", "wb 0B 03"]], tamper, &["gcr"]).is_empty());
    assert!(reported(&[THREE_WORDS, &["step 0 0", "ww 0A 0003"]], tamper, &["gcr"]).is_empty());
}

#[test]
fn a_counter_of_zero_means_equal_lists() {
    let tamper = |player: &mut Player| channel(player, 0).transfer_count = 0;
    let breaches = reported(&[THREE_WORDS, &["run 4"]], tamper, &["gcr"]);
    assert_reports(&breaches, "the lists are equal otherwise than at a counter of zero");
}

#[test]
fn a_moved_address_is_seen_at_the_next_cycle() {
    let tamper = |player: &mut Player| channel(player, 0).memory_address += 2;
    let breaches = reported(&[THREE_WORDS, &["run 2"]], tamper, &["run 2"]);
    assert_reports(&breaches, "what is gathered does not begin the first operand not delivered");
    assert_reports(&breaches, "the delivered list does not begin the named one");
}

#[test]
fn a_moved_address_is_seen_at_a_bus_error() {
    let stand = "after a bus error the addresses are not those of the next operand";
    let memory = |player: &mut Player| channel(player, 0).memory_address ^= 0x0100_0000;
    assert_reports(&reported(&[THREE_WORDS, &["run 2"]], memory, &["step 5 0"]), stand);
    let device = |player: &mut Player| channel(player, 0).device_address ^= 0x8000_0000;
    assert_reports(&reported(&[THREE_WORDS, &["run 3"]], device, &["step 5 0"]), stand);
    let base = |player: &mut Player| channel(player, 1).base_address += 2;
    let breaches = reported(&[TO_PRINTER, &["run 2"]], base, &["step 5 0"]);
    assert_reports(&breaches, "the words of an entry were not read at the base address");
}

#[test]
fn other_bytes_than_the_source_gave_are_seen() {
    let tamper = |player: &mut Player| {
        if let Phase::Operand { held, .. } = &mut channel(player, 0).phase {
            held.swap(0, 1);
        }
    };
    let breaches = reported(&[THREE_WORDS, &["run 3"]], tamper, &["run 1"]);
    assert_reports(&breaches, "an operand wrote other bytes than its source gave");
}

#[test]
fn what_was_read_stands_whatever_is_stored_later() {
    let before: &[&[&str]] = &[THREE_WORDS, &["step 7 0", "store 5 000000 99"]];
    assert_eq!(reported(before, |_| {}, &["step 7 0", "peek 0 000010 2"]), Vec::<String>::new());
}

#[test]
fn memory_changed_from_elsewhere_is_seen() {
    let tamper = |player: &mut Player| player.world.as_mut().unwrap().memory.write(0, 0x1E, 0x77);
    let breaches = reported(&[THREE_WORDS, &["run 2"]], tamper, &["gcr"]);
    assert_reports(&breaches, "memory changed otherwise than by an answered cycle or a store");
    assert_reports(&breaches, "memory changed where no operand was named to end and nothing was stored");
    // Where an operand was named to end it may change, but by a cycle only.
    let tamper = |player: &mut Player| player.world.as_mut().unwrap().memory.write(0, 0x14, 0x77);
    let breaches = reported(&[THREE_WORDS, &["run 2"]], tamper, &["gcr"]);
    assert_reports(&breaches, "memory changed otherwise than by an answered cycle or a store");
    assert!(!breaches.iter().any(|breach| breach.contains("was named to end")));
}

#[test]
fn devices_changed_from_elsewhere_are_seen() {
    let tamper = |player: &mut Player| player.world.as_mut().unwrap().bank.devices[1].kept[0] = 0;
    let breaches = reported(&[TO_PRINTER, &["run 5"]], tamper, &["gcr"]);
    assert_reports(&breaches, "a device changed otherwise than by an answered cycle");
    let tamper = |player: &mut Player| player.world.as_mut().unwrap().bank.devices[0].waiting.clear();
    let breaches = reported(&[TO_PRINTER], tamper, &["gcr"]);
    assert_reports(&breaches, "a device changed otherwise than by an answered cycle");
}

/// A step answered by a bus error on channel 0, after which something was
/// changed.
fn reported_of_error(change: impl Fn(&mut [Channel; 4])) -> Vec<String> {
    let mut player = Player::new();
    play(&mut player, THREE_WORDS);
    let world = player.world.clone().unwrap();
    let started = player.controller.channels.clone();
    let mut idle = started.clone();
    idle[0].status.active = false;
    play(&mut player, &["step 5 0"]);
    let mut after = player.controller.channels.clone();
    change(&mut after);

    let mut law = Law::new();
    law.set_up(&world.memory, &world.bank);
    let seen = Sight { before: &idle, after: &started, memory: &world.memory, bank: &world.bank };
    law.after_call(&Call::WriteByte(0x07, 0x80), true, None, &seen);
    let seen = Sight { before: &started, after: &after, memory: &world.memory, bank: &world.bank };
    law.after_call(&Call::Step(5, false), true, Some(&Answer::Error { channel: 0, code: 9 }), &seen);
    law.breaches
}

#[test]
fn a_bus_error_that_touches_a_neighbour_is_seen() {
    assert_eq!(reported_of_error(|_| {}), Vec::<String>::new());
    let other = "a bus error changed another channel";
    assert_reports(&reported_of_error(|channels| channels[1].line = true), other);
    assert_reports(&reported_of_error(|channels| channels[2].edge = true), other);
    assert_reports(&reported_of_error(|channels| channels[3].normal_vector = 0), other);
    let held = Phase::Operand { cycles_done: 1, held: [1; 4], device_done: false };
    assert_reports(&reported_of_error(|channels| channels[3].phase = held.clone()), other);
    let moved = "a bus error moved a counter or address";
    assert_reports(&reported_of_error(|channels| channels[0].base_count += 1), moved);
}
