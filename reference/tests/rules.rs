//! The rules that are easily read otherwise, each in a few lines.
//!
//! A test is a sequence of calls with the answers they must get.

use reference::play::Player;

/// Plays lines of the form `call = answer`; blank lines and notes are skipped.
fn expect(text: &str) {
    let mut player = Player::new();
    for line in text.lines().map(str::trim) {
        if line.is_empty() || line.starts_with('#') {
            continue;
        }
        let (call, answer) = line.split_once(" = ").unwrap_or((line, "ok"));
        assert_eq!(player.answer(call.as_bytes()), answer, "{call}");
    }
    player.finish();
}

/// A set-up with bytes counting up from 0 and the devices given.
fn world(bytes: usize, devices: &str, trace: usize) -> String {
    let memory: String = (0..bytes).map(|i| format!("{:02X}", i % 256)).collect();
    format!("mem flat {memory}\nbank {devices}\ntrace {trace}\n")
}

const NONE: &str = "tape:- tape:- tape:- tape:-";

#[test]
fn a_failing_chained_start_changes_no_counter() {
    // Array with base count 0: error 15; the transfer count keeps its value.
    expect(&(world(64, NONE, 4) + "
        ww 04 0819
        ww 0A 1234
        ww 1E 0010
        wb 07 80
        regs 0 = 90 0F 08 19 00 00 1234 0000 00000000 00000000 00000010 0F 0F 00 00 00 00
        # the passing one clears it at once
        wb 00 F0
        ww 1A 0002
        wb 07 80
        regs 0 = 08 00 08 19 00 00 0000 0002 00000000 00000000 00000010 0F 0F 00 00 00 00
    "));
}

#[test]
fn a_retry_moves_nothing() {
    expect(&(world(64, "tape:A1A2 tape:- tape:- tape:-", 4) + "
        ww 04 2081
        wb 06 04
        ww 0A 0002
        wb 07 80
        step 4 1 = retry
        step 3 1 = retry
        regs 0 = 08 00 20 81 04 00 0002 0000 00000000 00000000 00000000 0F 0F 00 00 00 00
        dev? 0 = A1A2 / - / 0
        step 7 0 = cycle 0 W 0 000000 A1
        step 4 0 = retry
        step 7 0 = cycle 0 W 0 000001 A2
        regs 0 = 80 00 20 81 04 00 0000 0000 00000002 00000000 00000000 0F 0F 00 00 00 00
    "));
}

#[test]
fn an_entry_is_loaded_only_after_its_last_word() {
    let table = "
        store 0 000011 00
        store 0 000010 00
        store 0 000012 00
        store 0 000013 20
        store 0 000014 00
        store 0 000015 02
        store 0 000016 00
        store 0 000017 00
        store 0 000018 00
        store 0 000019 30
    ";
    let common = world(64, NONE, 4) + table + "ww 04 080D\nww 1E 0010\nww 16 0038\n";
    expect(&(common + "
        wb 07 80
        step 7 0 = cycle 0 B 0 000010 0000
        step 7 0 = cycle 0 B 0 000012 0020
        step 7 0 = cycle 0 B 0 000014 0002
        step 7 0 = cycle 0 B 0 000016 0000
        regs 0 = 08 00 08 0D 00 00 0000 0000 00000000 00000038 00000010 0F 0F 00 00 00 00
        # words that have come are kept, whatever is stored later
        store 0 000013 22
        step 7 0 = cycle 0 B 0 000018 0030
        regs 0 = 08 00 08 0D 00 00 0002 0000 00000020 00000038 00000030 0F 0F 00 00 00 00
    "));
}

#[test]
fn the_counter_falls_at_the_last_destination_cycle() {
    expect(&(world(64, NONE, 4) + "
        ww 04 0021
        wb 06 05
        ww 0A 0001
        ww 16 0020
        wb 07 80
        step 7 0 = cycle 0 R 0 000000 0001
        step 7 0 = cycle 0 W 0 000020 00
        step 7 0 = cycle 0 W 0 000022 01
        step 7 0 = cycle 0 R 0 000002 0203
        step 7 0 = cycle 0 W 0 000024 02
        regs 0 = 08 00 00 21 05 00 0001 0000 00000000 00000020 00000000 0F 0F 00 00 00 00
        step 7 0 = cycle 0 W 0 000026 03
        regs 0 = 80 00 00 21 05 00 0000 0000 00000004 00000028 00000000 0F 0F 00 00 00 00
    "));
}

#[test]
fn the_second_portion_lies_above_the_first_also_when_counting_down() {
    expect(&(world(64, NONE, 4) + "
        ww 04 0821
        wb 06 0A
        ww 0A 0002
        ww 0E 0010
        ww 16 0020
        wb 07 80
        step 7 0 = cycle 0 R 0 000010 1011
        step 7 0 = cycle 0 W 0 000020 1011
        step 7 0 = cycle 0 R 0 000012 1213
        step 7 0 = cycle 0 W 0 000022 1213
        step 7 0 = cycle 0 R 0 00000C 0C0D
        step 7 0 = cycle 0 W 0 00001C 0C0D
    "));
}

#[test]
fn done_in_an_early_cycle_of_a_long_operand() {
    expect(&(world(64, "printer:20 tape:- tape:- tape:-", 4) + "
        ww 04 1821
        wb 06 05
        ww 0A 0003
        wb 07 80
        # not counted in a cycle of memory
        step 7 1 = cycle 0 R 0 000000 0001
        step 7 0 = cycle 0 W 0 000000 0001
        step 7 0 = cycle 0 R 0 000002 0203
        step 7 0 = cycle 0 W 0 000002 0203
        regs 0 = 08 00 18 21 05 00 0002 0000 00000004 00000004 00000000 0F 0F 00 00 00 00
        step 7 0 = cycle 0 R 0 000004 0405
        step 7 1 = cycle 0 W 0 000004 0405
        step 7 0 = cycle 0 R 0 000006 0607
        regs 0 = 08 00 18 21 05 00 0002 0000 00000004 00000004 00000000 0F 0F 00 00 00 00
        step 7 0 = cycle 0 W 0 000006 0607
        regs 0 = A0 00 18 21 05 00 0001 0000 00000008 00000008 00000000 0F 0F 00 00 00 00
    "));
}

#[test]
fn done_in_the_last_operand_is_ignored_unless_entries_remain() {
    // Continued: the next block is loaded.
    expect(&(world(64, "printer:20 tape:- tape:- tape:-", 4) + "
        ww 04 2001
        wb 06 04
        ww 0A 0001
        ww 1A 0001
        ww 1E 0010
        wb 39 05
        wb 07 C0
        step 7 1 = cycle 0 R 0 000000 00
        regs 0 = 48 00 20 01 04 00 0001 0001 00000010 00000000 00000010 0F 0F 05 00 05 00
        step 7 1 = cycle 0 R 5 000010 10
        regs 0 = C0 00 20 01 04 00 0000 0001 00000011 00000000 00000010 0F 0F 05 00 05 00
    "));
    // A table with an entry left: the operation ends.
    expect(&(world(64, "printer:20 tape:- tape:- tape:-", 4) + "
        ww 04 2009
        store 0 000000 00
        store 0 000001 00
        store 0 000002 00
        store 0 000003 20
        store 0 000004 00
        store 0 000005 01
        ww 1A 0002
        wb 07 80
        run 3 = done 3
        step 7 1 = cycle 0 R 0 000020 20
        regs 0 = A0 00 20 09 00 00 0000 0001 00000020 00000000 00000006 0F 0F 00 00 00 00
    "));
}

#[test]
fn continue_with_base_count_zero() {
    expect(&(world(64, NONE, 4) + "
        ww 04 0811
        wb 06 05
        ww 0A 0001
        ww 1E 0020
        wb 07 C0
        step 7 0 = cycle 0 R 0 000000 0001
        step 7 0 = cycle 0 W 0 000000 0001
        regs 0 = 90 0F 08 11 05 00 0000 0000 00000002 00000002 00000020 0F 0F 00 00 00 00
        # the flag of the bus was set by that cycle: halt finds nobody, idle
        step 6 0 = idle
    "));
}

#[test]
fn continue_to_an_odd_address_is_loaded_first() {
    expect(&(world(64, NONE, 4) + "
        ww 04 0811
        wb 06 05
        ww 0A 0001
        ww 1A 0007
        ww 1E 0021
        wb 39 03
        wb 07 C0
        step 7 0 = cycle 0 R 0 000000 0001
        step 7 0 = cycle 0 W 0 000000 0001
        regs 0 = D0 05 08 11 05 00 0007 0007 00000021 00000002 00000021 0F 0F 03 00 03 00
    "));
}

#[test]
fn error_five_at_a_table_entry_and_its_record() {
    let table = "
        store 0 000010 00
        store 0 000011 00
        store 0 000012 00
        store 0 000014 00
    ";
    // An odd address is 5, also with count 0; the entry is loaded first.
    expect(&(world(64, NONE, 8) + table + "
        store 0 000013 21
        store 0 000015 00
        ww 04 0819
        ww 1A 0003
        ww 1E 0010
        wb 07 80
        run 9 = idle 3
        empty 9 = moved 3: cycle 0 B 0 000010 0000; cycle 0 B 0 000012 0021; cycle 0 B 0 000014 0000
        regs 0 = 90 05 08 19 00 00 0000 0002 00000021 00000000 00000016 0F 0F 00 00 00 00
    "));
    // A count of 0 at an even address is 13.
    expect(&(world(64, NONE, 8) + table + "
        store 0 000013 20
        store 0 000015 00
        ww 04 0819
        ww 1A 0003
        ww 1E 0010
        wb 07 80
        run 3 = done 3
        regs 0 = 90 0D 08 19 00 00 0000 0002 00000020 00000000 00000016 0F 0F 00 00 00 00
        empty 2 = moved 2: cycle 0 B 0 000010 0000; cycle 0 B 0 000012 0020
    "));
}

#[test]
fn the_record_of_a_continue_that_ends_in_fifteen() {
    expect(&(world(64, NONE, 8) + "
        ww 04 0801
        wb 06 04
        ww 0A 0001
        ww 16 0030
        wb 07 C0
        run 2 = done 2
        empty 8 = moved 2: cycle 0 R 0 000000 00; cycle 0 W 0 000030 00
        rw 00 = 900F
    "));
}

#[test]
fn the_bus_is_kept_after_a_load_that_ends_in_an_error() {
    // Channel 0's load ends in 13; the halted step still finds the bus.
    expect(&(world(64, NONE, 8) + "
        store 0 000004 00
        store 0 000005 00
        ww 04 0809
        ww 1A 0001
        wb 07 80
        run 3 = done 3
        rw 00 = 900D
        ww 44 0801
        ww 4A 0001
        wb 47 80
        step 6 0 = cycle 1 R 0 000000 00
        step 6 0 = halted
    "));
}

#[test]
fn a_channel_inside_is_kept_through_its_halt() {
    expect(&(world(64, NONE, 8) + "
        ww 04 0811
        wb 06 05
        ww 0A 0002
        wb 2D 03
        wb 07 80
        step 7 0 = cycle 0 R 0 000000 0001
        ww 44 0801
        ww 4A 0001
        wb 47 80
        wb 07 20
        step 7 0 = cycle 0 W 0 000000 0001
        # outside an operand the halt holds, and the other channel has its turn
        step 7 0 = cycle 1 R 0 000000 00
        step 7 0 = cycle 1 W 0 000000 00
        step 7 0 = idle
        wb 07 00
        step 7 0 = cycle 0 R 0 000002 0203
    "));
}

#[test]
fn halt_with_and_without_the_bus() {
    expect(&(world(64, NONE, 8) + "
        ww 04 0811
        wb 06 05
        ww 0A 0004
        wb 07 80
        # a new controller does not have the bus
        step 6 0 = halted
        step 7 0 = cycle 0 R 0 000000 0001
        step 6 0 = cycle 0 W 0 000000 0001
        step 6 0 = halted
        step 7 0 = cycle 0 R 0 000002 0203
        # a retry leaves the bus, relinquishing gives it up
        step 4 0 = retry
        step 6 0 = cycle 0 W 0 000002 0203
        step 7 0 = cycle 0 R 0 000004 0405
        step 3 0 = retry
        step 6 0 = halted
        regs 0 = 08 00 08 11 05 00 0002 0000 00000004 00000004 00000000 0F 0F 00 00 00 00
    "));
}

#[test]
fn an_error_a_step_answers_gives_up_the_bus_and_idle_does_too() {
    let other = "ww 44 0801\nww 4A 0003\nwb 47 80\n";
    expect(&(world(64, NONE, 8) + "
        ww 04 0801
        ww 0A 0003
        wb 07 80
        step 7 0 = cycle 0 R 0 000000 00
        step 5 0 = error 0 0A
    " + other + "
        step 6 0 = halted
        step 7 0 = cycle 1 R 0 000000 00
        # an error by a register write leaves the bus
        wb 47 10
        wb 40 F0
        wb 47 80
        step 6 0 = cycle 1 R 0 000000 00
        step 7 0 = cycle 1 W 0 000000 00
        # an idle step drops it, under retry too
        wb 47 20
        step 4 0 = idle
        wb 47 00
        step 6 0 = halted
    "));
}

#[test]
fn a_start_forgets_a_latched_edge() {
    expect(&(world(64, "printer:20 tape:- tape:- tape:-", 4) + "
        ww 04 A002
        ww 0A 0002
        wb 07 80
        req 0 1
        wb 07 10
        wb 00 F0
        wb 07 80
        step 7 0 = idle
        req 0 0
        req 0 1
        req 0 0
        req 0 1
        step 7 0 = cycle 0 R 0 000000 00
        step 7 0 = idle
    "));
}

#[test]
fn a_word_with_one_barred_half_is_not_made() {
    expect(&(world(64, NONE, 8) + "
        ww 04 0811
        wb 06 05
        ww 0A 0002
        wb 07 80
        step 7 0 = cycle 0 R 0 000000 0001
        # sequence control is barred, so halt and interrupt are not stored
        ww 06 0A28
        regs 0 = 90 02 08 11 05 00 0002 0000 00000000 00000000 00000000 0F 0F 00 00 00 00
        # what was held is dropped: a new start reads again
        wb 00 F0
        wb 07 80
        step 7 0 = cycle 0 R 0 000000 0001
        # a start bit in a word is refused whatever the channel is doing
        ww 06 0A80 = refused 4
        rb 00 = 08
    "));
}

#[test]
fn a_failing_control_write_has_stored_halt_and_interrupt() {
    expect(&(world(64, NONE, 8) + "
        wb 07 E8
        regs 0 = 90 0D 00 00 00 28 0000 0000 00000000 00000000 00000000 0F 0F 00 00 00 00
        wb 07 48
        # the first code is kept
        regs 0 = 90 0D 00 00 00 08 0000 0000 00000000 00000000 00000000 0F 0F 00 00 00 00
    "));
}

#[test]
fn an_odd_link_comes_before_retry_and_bus_error() {
    let table = "
        store 0 000000 00
        store 0 000001 00
        store 0 000003 20
        store 0 000002 00
        store 0 000004 00
        store 0 000005 01
        store 0 000006 00
        store 0 000007 00
        store 0 000008 00
        store 0 000009 11
    ";
    expect(&(world(64, NONE, 8) + table + "
        ww 04 080D
        ww 16 0030
        wb 07 80
        run 7 = done 7
        step 4 0 = error 0 07
        step 6 0 = idle
    "));
}

#[test]
fn a_chain_ends_at_base_address_zero_not_at_address_zero() {
    let table = "
        store 0 000000 00
        store 0 000001 00
        store 0 000002 00
        store 0 000003 20
        store 0 000004 00
        store 0 000005 01
        store 0 000006 5A
        store 0 000007 00
        store 0 000008 00
        store 0 000009 00
    ";
    expect(&(world(64, NONE, 16) + table + "
        ww 04 080D
        ww 16 0030
        wb 07 80
        run 7 = done 7
        store 0 000006 00
        step 7 0 = cycle 0 B 0 000000 0000
        run 6 = done 6
        rb 00 = 80
    "));
}

#[test]
fn the_automatic_operand_does_not_spend_an_edge() {
    expect(&(world(64, "printer:20 tape:- tape:- tape:-", 4) + "
        ww 04 A003
        wb 06 04
        ww 0A 0003
        # an edge while inactive is not latched
        req 0 1
        wb 07 80
        req 0 0
        req 0 1
        step 7 0 = cycle 0 R 0 000000 00
        step 7 0 = cycle 0 R 0 000001 01
        step 7 0 = idle
        # a line already on gives no edge
        req 0 1
        step 7 0 = idle
        req 0 0
        step 7 0 = idle
        req 0 1
        step 7 0 = cycle 0 R 0 000002 02
        rb 00 = 80
    "));
}

#[test]
fn single_addressing_waits_at_an_unanswered_place() {
    expect(&(world(16, "tape:- printer:1 tape:- tape:-", 4) + "
        ww 04 2081
        ww 0A 0001
        ww 0E 0100
        wb 07 80
        step 7 0 = waiting
        step 5 0 = error 0 09
        ww 44 2001
        ww 4A 0001
        ww 4E 0100
        wb 47 80
        step 7 0 = error 1 09
    "));
}

#[test]
fn equal_priorities_go_round_and_lower_numbers_win() {
    let channel = |base: u32| {
        format!("ww {:02X} 0801\nww {:02X} 0004\nwb {:02X} 80\n", base + 4, base + 0x0A, base + 7)
    };
    let start = channel(0) + &channel(0x40) + &channel(0x80) + &channel(0xC0);
    expect(&(world(16, NONE, 4) + &start + "
        step 7 0 = cycle 0 R 0 000000 00
        step 7 0 = cycle 0 W 0 000000 00
        step 7 0 = cycle 1 R 0 000000 00
        step 7 0 = cycle 1 W 0 000000 00
        step 7 0 = cycle 2 R 0 000000 00
        # kept inside although another one is now before it
        wb AD 03
        step 7 0 = cycle 2 W 0 000000 00
        wb 2D 01
        wb 6D 01
        wb ED 02
        step 7 0 = cycle 0 R 0 000000 00
        step 7 0 = cycle 0 W 0 000000 00
        step 7 0 = cycle 1 R 0 000000 00
    "));
}

#[test]
fn a_reset_keeps_counters_addresses_codes_and_lines() {
    expect(&(world(64, NONE, 4) + "
        ww 04 8819
        wb 06 05
        ww 1A 0002
        ww 1E 0010
        wb 29 01
        wb 31 02
        wb 39 03
        wb 2D 02
        wb 25 40
        wb FF 0F
        req 0 1
        wb 07 88
        step 7 0 = cycle 0 B 3 000010 1011
        step 0 1 = reset
        regs 0 = 00 00 00 00 00 00 0000 0002 00000000 00000000 00000010 0F 0F 01 02 03 00
        gcr = 00
        step 6 0 = idle
        # the line stayed on: a burst channel goes at once
        ww 04 1002
        ww 0A 0001
        wb 07 80
        step 7 0 = cycle 0 R 1 000000 00
    "));
}

#[test]
fn runs_and_the_trace() {
    expect(&(world(16, NONE, 3) + "
        ww 04 0801
        ww 0A 0009
        wb 07 80
        run 0 = done 0
        run 2 = done 2
        run 5 = full 1
        run 1 = refused 10
        run 0 = done 0
        empty 1 = moved 1: cycle 0 R 0 000000 00
        run 1 = done 1
        empty 3 = moved 3: cycle 0 W 0 000000 00; cycle 0 R 0 000000 00; cycle 0 W 0 000000 00
    "));
}

#[test]
fn a_run_goes_on_after_an_error() {
    expect(&(world(16, NONE, 5) + "
        ww 04 0801
        ww 0A 0001
        ww 0E 0010
        wb 07 80
        ww 44 0801
        ww 4A 0001
        wb 47 80
        run 9 = idle 3
        empty 9 = moved 3: error 0 09; cycle 1 R 0 000000 00; cycle 1 W 0 000000 00
    "));
}

#[test]
fn lines_that_are_none() {
    expect(&(world(16, NONE, 5) + "
        rb 0 = bad line
        rb 0a = bad line
        step 7 2 = bad line
        step 8 0 = refused 5
        step 1 0 = refused 5
        req 4 1 = refused 3
        run 65536 = bad line
        take 8 = bad line
        close 0 = bad line
        take 0 = refused 9
        store 8 000000 00 = refused 8
        store 7 000010 00 = refused 8
        store 7 00000F AA
        peek 2 00000E 2 = 0EAA
    "));
}

#[test]
fn a_long_line_is_answered() {
    let mut player = Player::new();
    let long = "F".repeat(100_000);
    assert_eq!(player.answer(format!("mem flat {long}").as_bytes()), "ok");
    assert_eq!(player.answer(format!("bank {long}").as_bytes()), "bad line");
    assert_eq!(player.answer(b"bank printer:1 tape:- tape:00 printer:0"), "ok");
    assert_eq!(player.answer(b"trace 1"), "ok");
    assert_eq!(player.answer(b"dev? 2"), "00 / - / 0");
    assert_eq!(player.answer(b"mem? 0"), long);
}
