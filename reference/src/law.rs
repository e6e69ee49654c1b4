//! The operand law, checked beside a play.
//!
//! For each channel a book keeps the operands its latest operation has named
//! and those it has delivered. Three things are demanded, over every order of
//! calls, and after each step of a run as after a lone one:
//!
//! - The lists. From a start that passes its checks to the next write made to
//!   the transfer counter, the delivered list begins the named one and lacks
//!   as many operands as the counter shows; the two are equal exactly when it
//!   is zero.
//! - The bytes. Each delivered operand wrote what its source gave when it was
//!   read. Each answered cycle is true of memory and device. Memory differs
//!   from what it was before the first call only at destinations of operands
//!   that were named, and where something was stored.
//! - Bus errors. A step answered by one leaves the other channels whole as
//!   they were. Its own channel's address registers stand, in all their bits,
//!   at the first operand named and not delivered, or its base registers at
//!   the entry it was reading.
//!
//! The law also counts how often each of these was really met.

use crate::book::{sent, start_passes, Book, End, EntryWord, Plan};
use crate::controller::Channel;
use crate::cover::{counted, Counts};
use crate::play::Call;
use crate::settings::*;
use crate::step::{Answer, CycleKind, CycleRecord};
use crate::world::{Bank, Memory};

counted! { LawRule {
    WindowOpened => "window: opened by a start",
    WindowClosedByHighByte => "window: closed by the counter's high byte",
    WindowClosedByLowByte => "window: closed by the counter's low byte",
    WindowClosedByWord => "window: closed by a word",
    WindowClosedByEqualValue => "window: closed by writing the value that stood there",
    WindowClosedLacking => "window: closed while operands lacked",
    CounterWriteNotMade => "window: a write to the counter is not made",
    ResetInside => "window: a reset inside",
    ResetWhileLacking => "window: a reset inside while operands lack",
    FailingStartInside => "window: a failing start inside",
    FailingStartWhileLacking => "window: a failing start inside while operands lack",
    FailingChainedStartWhileLacking => "window: a failing chained start inside while operands lack",
    CheckedAfterStepOfRun => "checked: after a step of a run",
    CheckedAfterStep => "checked: after a lone step",
    CheckedAfterOther => "checked: after another call",
    CheckedAfterRefusal => "checked: after a refused call",
    CheckedWhileActive => "lists: while the channel is active",
    CheckedAfterEnd => "lists: after the end",
    CheckedAfterDeviceEnd => "lists: after an end by the device",
    CheckedAfterError => "lists: after an error",
    CheckedAfterReset => "lists: after a reset",
    CheckedAfterFailingStart => "lists: after a failing start",
    CheckedLacking => "lists: operands lack, the counter is above zero",
    CheckedEqual => "lists: equal, the counter is zero",
    NamedByStart => "named: by an unchained start",
    NamedByEntry => "named: by an entry",
    NamedByOddEntry => "named: by an entry that gives error 5",
    NamedNothingByEntry => "named: nothing, by an entry of count 0",
    NamedByContinue => "named: by a continued block",
    NamedByOddContinue => "named: by a continued block that gives error 5",
    NamedNothingByContinue => "named: nothing, by a continue with base count 0",
    Delivered => "delivered: operands",
    DeliveredMemoryToMemory => "delivered: from memory to memory",
    DeliveredMemoryToDevice => "delivered: from memory to a device",
    DeliveredDeviceToMemory => "delivered: from a device to memory",
    DeliveredSingle => "delivered: in single addressing",
    DeliveredLong => "delivered: a long",
    DeliveredAfterStore => "delivered: after a store changed the source",
    DroppedAfterWrite => "dropped: an operand partly written",
    ReadMemory => "cycles: byte read from memory",
    ReadDevice => "cycles: byte given by a device",
    ReadEntry => "cycles: byte of an entry",
    WroteMemory => "cycles: byte written to memory",
    WroteDevice => "cycles: byte kept by a device",
    MemoryCompared => "memory: compared whole",
    MemoryChangedByCycle => "memory: a byte changed by a cycle",
    MemoryChangedByStore => "memory: a byte changed by a store",
    EndedWithNothingLacking => "end: in a cycle, nothing lacks",
    EndedByDevice => "end: in a cycle, by the device, while operands lack",
    EndedByOddLoad => "end: in a cycle, by a block at an odd address",
    BusError9 => "bus error: 9, memory side or single addressing",
    BusError10 => "bus error: 10, device side",
    BusError11 => "bus error: 11, entry",
    BusErrorInRun => "bus error: in a run",
    BusErrorInSingle => "bus error: in single addressing",
    BusErrorInsideOperand => "bus error: inside an operand",
    BusErrorAfterWrite => "bus error: inside an operand partly written",
    BusErrorAfterDelivery => "bus error: after operands delivered",
    BusErrorInLaterBlock => "bus error: in an operand of a later block",
    BusErrorAbove24Bits => "bus error: an address register needs more than 24 bits",
    BusErrorInsideEntry => "bus error: inside an entry",
    BusErrorInLaterEntry => "bus error: in a later entry",
    BusErrorBesideActive => "bus error: beside an active channel",
    BusErrorBesideLatch => "bus error: beside a latched edge",
}}

/// Longer spaces are compared whole only now and then.
const SHORT: usize = 1 << 12;
const NOW_AND_THEN: u64 = 512;

/// What is seen around a call or a step.
#[derive(Clone, Copy)]
pub struct Sight<'a> {
    pub before: &'a [Channel; 4],
    pub after: &'a [Channel; 4],
    /// Memory and devices afterwards.
    pub memory: &'a Memory,
    pub bank: &'a Bank,
}

impl Sight<'_> {
    fn same_but(&self, channel: usize) -> bool {
        (0..4).filter(|&other| other != channel).all(|other| self.before[other] == self.after[other])
    }
}

/// The bytes of one space that may change.
#[derive(Clone, Debug)]
struct Space {
    number: u8,
    /// A code that names its bytes.
    code: u8,
    /// By address: an operand was named that ends here, or something stored.
    may_change: Vec<bool>,
}

impl Space {
    /// The spaces that the eight codes name.
    fn all_of(memory: &Memory) -> Vec<Space> {
        let mut spaces: Vec<Space> = Vec::new();
        for code in 0..8 {
            let number = memory.space(code);
            if spaces.iter().all(|space| space.number != number) {
                spaces.push(Space { number, code, may_change: vec![false; memory.bytes_of(code).len()] });
            }
        }
        spaces
    }

    /// Whether only bytes that may change differ.
    fn accounts_for(&self, first: &Memory, now: &Memory) -> bool {
        let both = first.bytes_of(self.code).iter().zip(now.bytes_of(self.code));
        both.zip(&self.may_change).filter(|((first, now), may_change)| first != now && !**may_change).count() == 0
    }
}

/// What the last cycle did to the operand or entry it belongs to.
enum Progress {
    Inside,
    Delivered { device_done: bool },
    Loaded,
}

#[derive(Clone, Debug)]
pub struct Law {
    books: [Book; 4],
    /// Memory before the first call.
    first: Memory,
    spaces: Vec<Space>,
    /// What stores and answered cycles have made of memory and devices.
    memory: Memory,
    bank: Bank,
    calls: u64,
    pub counts: Counts<LawRule>,
    pub checks: u64,
    pub breaches: Vec<String>,
}

impl Default for Law {
    fn default() -> Self {
        Law::new()
    }
}

impl Law {
    pub fn new() -> Self {
        Law {
            books: Default::default(),
            first: Memory::Flat(Vec::new()),
            spaces: Vec::new(),
            memory: Memory::Flat(Vec::new()),
            bank: Bank::default(),
            calls: 0,
            counts: Counts::new(),
            checks: 0,
            breaches: Vec::new(),
        }
    }

    pub fn set_up(&mut self, memory: &Memory, bank: &Bank) {
        self.first = memory.clone();
        self.spaces = Space::all_of(memory);
        self.memory = memory.clone();
        self.bank = bank.clone();
    }

    fn breach(&mut self, channel: usize, what: &str) {
        if self.breaches.len() < 20 {
            self.breaches.push(format!("after call {}, channel {}: {}", self.calls, channel, what));
        }
    }

    fn demand(&mut self, holds: bool, channel: usize, what: &str) {
        self.checks += 1;
        if !holds {
            self.breach(channel, what);
        }
    }

    fn hit_if(&mut self, met: bool, rule: LawRule) {
        if met {
            self.counts.hit(rule);
        }
    }

    // ---- calls -----------------------------------------------------------

    /// Enters a call and its answer. A run has entered its steps already.
    pub fn after_call(&mut self, call: &Call, accepted: bool, step: Option<&Answer>, seen: &Sight) {
        self.calls += 1;
        match call {
            _ if !accepted => {
                self.counts.hit(LawRule::CheckedAfterRefusal);
                self.demand(seen.before == seen.after, 0, "a refused call changed a channel");
            }
            Call::WriteByte(offset, value) => self.after_write(&[(*offset as u32, *value)], seen),
            Call::WriteWord(offset, value) => {
                let (offset, bytes) = (*offset as u32, value.to_be_bytes());
                self.after_write(&[(offset, bytes[0]), (offset + 1, bytes[1])], seen);
            }
            Call::Store(code, address, value) => self.after_store(*code as u8, *address, *value),
            Call::Step(_, done) => {
                self.counts.hit(LawRule::CheckedAfterStep);
                if let Some(answer) = step {
                    self.after_step(answer, *done, seen);
                }
            }
            _ => {}
        }
        self.hit_if(accepted && step.is_none(), LawRule::CheckedAfterOther);
        self.check(seen);
        if self.calls.is_multiple_of(NOW_AND_THEN) {
            self.compare_memory(seen.memory);
        }
    }

    /// Enters a step of a run.
    pub fn after_step_of_run(&mut self, answer: &Answer, seen: &Sight) {
        self.counts.hit(LawRule::CheckedAfterStepOfRun);
        let bus_error = matches!(answer, Answer::Error { code: 9..=11, .. });
        self.hit_if(bus_error, LawRule::BusErrorInRun);
        self.after_step(answer, false, seen);
        self.check(seen);
    }

    /// The last look, at memory of every length.
    pub fn at_the_end(&mut self, seen: &Sight) {
        self.check(seen);
        self.compare_memory(seen.memory);
    }

    fn after_write(&mut self, bytes: &[(u32, u8)], seen: &Sight) {
        for &(offset, value) in bytes {
            let channel = offset as usize / 64;
            match (offset % 64, bytes.len()) {
                (0x0A, 2) => self.after_counter_write(channel, LawRule::WindowClosedByWord, seen),
                (0x0A, _) => self.after_counter_write(channel, LawRule::WindowClosedByHighByte, seen),
                (0x0B, 1) => self.after_counter_write(channel, LawRule::WindowClosedByLowByte, seen),
                (0x07, _) if value & 0x90 == 0x80 => self.after_start(channel, value & 0x40 != 0, seen),
                _ => {}
            }
        }
        self.drop_of_inactive(seen.after);
    }

    /// A write to the counter is made unless the channel is active. It closes
    /// the window whatever the value.
    fn after_counter_write(&mut self, channel: usize, by: LawRule, seen: &Sight) {
        let before = &seen.before[channel];
        if !self.books[channel].open {
            return;
        }
        if before.status.active {
            return self.counts.hit(LawRule::CounterWriteNotMade);
        }
        self.books[channel].open = false;
        self.counts.hit(by);
        let equal = before.transfer_count == seen.after[channel].transfer_count;
        self.hit_if(equal, LawRule::WindowClosedByEqualValue);
        self.hit_if(self.books[channel].lacking() != Some(0), LawRule::WindowClosedLacking);
    }

    fn after_start(&mut self, channel: usize, continued: bool, seen: &Sight) {
        let before = &seen.before[channel];
        let passes = start_passes(before, continued);
        let active = seen.after[channel].status.active;
        self.demand(active == passes, channel, "a channel is active otherwise than by a start that passes");
        if passes {
            self.begin(channel, before);
        } else if self.books[channel].open {
            let lacks = self.books[channel].lacking() != Some(0);
            self.books[channel].had_failing_start = true;
            self.counts.hit(LawRule::FailingStartInside);
            self.hit_if(lacks, LawRule::FailingStartWhileLacking);
            let chained = before.operation.chain.is_chained();
            self.hit_if(lacks && chained, LawRule::FailingChainedStartWhileLacking);
        }
    }

    /// A start that passed: both lists are empty, then an unchained one names
    /// its operands.
    fn begin(&mut self, channel: usize, before: &Channel) {
        self.counts.hit(LawRule::WindowOpened);
        self.books[channel] = Book::of_start(before);
        if !before.operation.chain.is_chained() {
            self.counts.hit(LawRule::NamedByStart);
            self.name(channel, before.transfer_count, before.memory_address, before.memory_code);
        }
    }

    /// Names a block of operands; their destinations may change from now on.
    fn name(&mut self, channel: usize, count: u16, memory_address: u32, memory_code: u8) {
        self.books[channel].name(count, memory_address, memory_code);
        for (code, address) in self.books[channel].last_destinations() {
            allow(&mut self.spaces, &self.memory, code, address);
        }
    }

    fn after_store(&mut self, code: u8, address: u32, value: u8) {
        let changes = self.memory.read(code, address) != Some(value);
        self.hit_if(changes, LawRule::MemoryChangedByStore);
        let space = self.memory.space(code);
        for book in &mut self.books {
            let is_source = book.from[book.to.len().min(book.from.len())..].iter().any(|(end, _)| match *end {
                End::Memory { code, address: from } => self.memory.space(code) == space && from == address,
                _ => false,
            });
            book.source_changed |= changes && is_source;
        }
        allow(&mut self.spaces, &self.memory, code, address);
        self.memory.write(code, address, value);
    }

    /// Nothing stays gathered for a channel that is not active.
    fn drop_of_inactive(&mut self, after: &[Channel; 4]) {
        for (book, channel) in self.books.iter_mut().zip(after) {
            if !channel.status.active {
                if !book.to.is_empty() {
                    self.counts.hit(LawRule::DroppedAfterWrite);
                }
                book.drop_gathered();
            }
        }
    }

    // ---- steps -----------------------------------------------------------

    fn after_step(&mut self, answer: &Answer, done: bool, seen: &Sight) {
        match answer {
            Answer::Cycle(cycle) => self.after_cycle(cycle, done, seen),
            Answer::Error { channel, code: 7 } => self.after_odd_entry(*channel, seen),
            Answer::Error { channel, code } => self.after_bus_error(*channel, *code, seen),
            Answer::Reset => self.after_reset(),
            _ => self.demand(seen.before == seen.after, 0, "a step without a cycle changed a channel"),
        }
        self.drop_of_inactive(seen.after);
    }

    /// A reset leaves both lists as they are.
    fn after_reset(&mut self) {
        for channel in 0..4 {
            if self.books[channel].open {
                let lacks = self.books[channel].lacking() != Some(0);
                self.books[channel].had_reset = true;
                self.counts.hit(LawRule::ResetInside);
                self.hit_if(lacks, LawRule::ResetWhileLacking);
            }
        }
    }

    fn after_cycle(&mut self, cycle: &CycleRecord, done: bool, seen: &Sight) {
        let channel = cycle.channel;
        self.demand(seen.same_but(channel), channel, "a cycle changed another channel");
        let Some(plan) = self.books[channel].plan.clone() else {
            return self.breach(channel, "a cycle without an operation");
        };
        let progress = if cycle.kind == CycleKind::EntryWord {
            self.after_entry_word(cycle, &plan, seen)
        } else {
            self.after_operand_cycle(cycle, &plan, done, seen)
        };
        self.check_end(channel, progress, &plan, &seen.after[channel]);
    }

    /// An operation ends in a cycle only between operands, and if operands
    /// lack then only because the device said so or the block just loaded has
    /// an odd address.
    fn check_end(&mut self, channel: usize, progress: Progress, plan: &Plan, after: &Channel) {
        if after.status.active {
            return;
        }
        let nothing_lacks = self.books[channel].lacking() == Some(0);
        let odd = plan.operation.size.above_byte() && after.memory_address % 2 == 1;
        let by_device = matches!(progress, Progress::Delivered { device_done: true });
        let reason = match progress {
            Progress::Inside => None,
            _ if nothing_lacks => Some(LawRule::EndedWithNothingLacking),
            _ if by_device => Some(LawRule::EndedByDevice),
            _ if odd => Some(LawRule::EndedByOddLoad),
            _ => None,
        };
        self.demand(reason.is_some(), channel, "an operation ended in a cycle although operands lack");
        if let Some(reason) = reason {
            self.counts.hit(reason);
        }
    }

    // ---- entries ---------------------------------------------------------

    fn after_entry_word(&mut self, cycle: &CycleRecord, plan: &Plan, seen: &Sight) -> Progress {
        let channel = cycle.channel;
        let (before, after) = (&seen.before[channel], &seen.after[channel]);
        let needed = plan.operation.chain.entry_words();
        self.demand(needed > 0, channel, "an operation without a table read an entry");
        for (i, &byte) in cycle.data.iter().enumerate() {
            let held = self.memory.read(cycle.code, cycle.address + i as u32);
            self.counts.hit(LawRule::ReadEntry);
            self.demand(held == Some(byte), channel, "a table did not hold a word that was read");
        }
        self.books[channel].entry.push(EntryWord::of(cycle));
        self.check_entry_places(channel, before);
        if self.books[channel].entry.len() != needed {
            self.demand(same_places(before, after), channel, "a register moved before the last word of an entry");
            return Progress::Inside;
        }
        self.after_load(channel, plan, before, after);
        Progress::Loaded
    }

    /// The words gathered so far were read where the base registers say.
    fn check_entry_places(&mut self, channel: usize, c: &Channel) {
        let place = |k: usize| (c.base_code, sent(c.base_address.wrapping_add(2 * k as u32)));
        let words = &self.books[channel].entry;
        let fits = words.iter().enumerate().all(|(k, word)| (word.code, word.address) == place(k));
        self.demand(fits, channel, "the words of an entry were not read at the base address");
    }

    /// The answered words of an entry name a block.
    fn after_load(&mut self, channel: usize, plan: &Plan, before: &Channel, after: &Channel) {
        let words: Vec<u16> = self.books[channel].entry.iter().map(|word| word.word).collect();
        self.books[channel].drop_gathered();
        let joined = |high: u16, low: u16| u32::from(high) * 0x1_0000 + u32::from(low);
        let (memory_address, count) = (joined(words[0], words[1]), words[2]);
        self.name(channel, count, memory_address, before.memory_code);
        let odd = plan.operation.size.above_byte() && memory_address % 2 == 1;
        self.counts.hit(match count {
            0 => LawRule::NamedNothingByEntry,
            _ if odd => LawRule::NamedByOddEntry,
            _ => LawRule::NamedByEntry,
        });
        let next = match words[..] {
            [_, _, _, high, low] => (joined(high, low), before.base_count),
            _ => (before.base_address.wrapping_add(6), before.base_count.wrapping_sub(1)),
        };
        let stands = (after.base_address, after.base_count) == next;
        self.demand(stands, channel, "the base registers do not stand behind the entry that was loaded");
    }

    // ---- operands --------------------------------------------------------

    fn after_operand_cycle(&mut self, cycle: &CycleRecord, plan: &Plan, done: bool, seen: &Sight) -> Progress {
        let channel = cycle.channel;
        self.demand(plan.names_cycle(cycle.kind), channel, "a cycle goes against the direction");
        for (i, &byte) in cycle.data.iter().enumerate() {
            let (from, to) = plan.ends(cycle.kind, cycle.code, cycle.address + i as u32);
            if let Some(from) = from {
                self.source_gives(channel, from, byte);
            }
            if let Some(to) = to {
                self.destination_gets(channel, to, byte, seen.memory);
            }
        }
        let (from, to) = plan.ends(cycle.kind, cycle.code, cycle.address);
        if to.is_some_and(|end| !end.is_memory()) {
            let kept = &seen.bank.devices[channel].kept;
            self.demand(kept.ends_with(&cycle.data), channel, "a device did not keep last what was written");
        }
        let with_device = [from, to].iter().flatten().any(|end| !end.is_memory());
        let book = &mut self.books[channel];
        book.device_done |= done && with_device;
        let begins = book.gathered_begins_next();
        let complete = book.to.len() == plan.bytes();
        self.demand(begins, channel, "what is gathered does not begin the first operand not delivered");
        if complete {
            return self.after_delivery(channel, plan, seen);
        }
        let same = same_places(&seen.before[channel], &seen.after[channel]);
        self.demand(same, channel, "a counter or address moved inside an operand");
        Progress::Inside
    }

    /// The source held the byte before the cycle.
    fn source_gives(&mut self, channel: usize, end: End, byte: u8) {
        let held = match end {
            End::Memory { code, address } => self.memory.read(code, address),
            _ => self.bank.give(channel, 1).first().copied(),
        };
        self.counts.hit(if end.is_memory() { LawRule::ReadMemory } else { LawRule::ReadDevice });
        self.demand(held == Some(byte), channel, "a source did not hold what was read");
        self.books[channel].from.push((end, byte));
    }

    /// After the cycle the destination holds the byte, and might change.
    fn destination_gets(&mut self, channel: usize, end: End, byte: u8, now: &Memory) {
        self.books[channel].to.push((end, byte));
        let End::Memory { code, address } = end else {
            self.counts.hit(LawRule::WroteDevice);
            return self.bank.take(channel, &[byte]);
        };
        self.counts.hit(LawRule::WroteMemory);
        self.hit_if(self.memory.read(code, address) != Some(byte), LawRule::MemoryChangedByCycle);
        self.memory.write(code, address, byte);
        self.demand(now.read(code, address) == Some(byte), channel, "memory does not hold what was written");
        let changed = self.first.read(code, address) != Some(byte);
        let may_change = is_allowed(&self.spaces, &self.memory, code, address);
        self.demand(!changed || may_change, channel, "memory changed where no operand was named to end");
    }

    fn after_delivery(&mut self, channel: usize, plan: &Plan, seen: &Sight) -> Progress {
        self.count_delivery(channel, plan);
        let book = &mut self.books[channel];
        let device_done = book.device_done;
        let same_bytes = book.from.iter().map(|from| from.1).eq(book.to.iter().map(|to| to.1));
        book.deliver();
        self.demand(same_bytes, channel, "an operand wrote other bytes than its source gave");
        let before = &seen.before[channel];
        if !plan.operation.chain.is_chained() && before.transfer_count == 1 && before.continue_block {
            self.after_continue(channel, plan, seen);
        }
        Progress::Delivered { device_done }
    }

    /// The last operand of a block under continue names the next block, from
    /// the base registers.
    fn after_continue(&mut self, channel: usize, plan: &Plan, seen: &Sight) {
        let before = &seen.before[channel];
        if before.base_count == 0 {
            return self.counts.hit(LawRule::NamedNothingByContinue);
        }
        self.demand(seen.after[channel].status.block, channel, "a continued block without its bit");
        self.name(channel, before.base_count, before.base_address, before.base_code);
        let odd = plan.operation.size.above_byte() && before.base_address % 2 == 1;
        self.counts.hit(if odd { LawRule::NamedByOddContinue } else { LawRule::NamedByContinue });
    }

    fn count_delivery(&mut self, channel: usize, plan: &Plan) {
        let book = &self.books[channel];
        let in_memory = |bytes: &[(End, u8)]| bytes.iter().all(|(end, _)| end.is_memory());
        let rule = match (in_memory(&book.from), in_memory(&book.to)) {
            (true, true) => LawRule::DeliveredMemoryToMemory,
            (true, false) => LawRule::DeliveredMemoryToDevice,
            _ => LawRule::DeliveredDeviceToMemory,
        };
        let after_store = book.source_changed;
        self.counts.hit(LawRule::Delivered);
        self.counts.hit(rule);
        self.hit_if(plan.device.is_single(), LawRule::DeliveredSingle);
        self.hit_if(plan.operation.size == Size::Long, LawRule::DeliveredLong);
        self.hit_if(after_store, LawRule::DeliveredAfterStore);
    }

    // ---- errors ----------------------------------------------------------

    fn after_odd_entry(&mut self, channel: usize, seen: &Sight) {
        self.demand(seen.same_but(channel), channel, "an error changed another channel");
        let same = same_places(&seen.before[channel], &seen.after[channel]);
        self.demand(same, channel, "an error moved a counter or address");
    }

    fn after_bus_error(&mut self, channel: usize, code: u8, seen: &Sight) {
        let (before, after) = (&seen.before[channel], &seen.after[channel]);
        self.demand(matches!(code, 9..=11), channel, "a step answered an error that is none of its own");
        self.demand(seen.same_but(channel), channel, "a bus error changed another channel");
        self.demand(same_places(before, after), channel, "a bus error moved a counter or address");
        self.count_bus_error(channel, code, seen);
        if code == 11 {
            return self.check_entry_places(channel, after);
        }
        let stands = self.books[channel].next_registers() == Some((after.memory_address, after.device_address));
        self.demand(stands, channel, "after a bus error the addresses are not those of the next operand");
    }

    fn count_bus_error(&mut self, channel: usize, code: u8, seen: &Sight) {
        let book = &self.books[channel];
        let inside_operand = !book.from.is_empty();
        let partly_written = !book.to.is_empty();
        let inside_entry = !book.entry.is_empty();
        let delivered = book.delivered() > 0;
        let later_block = book.in_later_block();
        let after = &seen.after[channel];
        let entry = code == 11;
        let above = [after.memory_address, after.device_address].iter().any(|&register| register != sent(register));
        let others = || (0..4).filter(|&other| other != channel).map(|other| &seen.before[other]);
        self.counts.hit(match code {
            9 => LawRule::BusError9,
            10 => LawRule::BusError10,
            _ => LawRule::BusError11,
        });
        self.hit_if(!entry && seen.before[channel].device.is_single(), LawRule::BusErrorInSingle);
        self.hit_if(inside_operand, LawRule::BusErrorInsideOperand);
        self.hit_if(partly_written, LawRule::BusErrorAfterWrite);
        self.hit_if(!entry && delivered, LawRule::BusErrorAfterDelivery);
        self.hit_if(!entry && later_block, LawRule::BusErrorInLaterBlock);
        self.hit_if(!entry && above, LawRule::BusErrorAbove24Bits);
        self.hit_if(inside_entry, LawRule::BusErrorInsideEntry);
        self.hit_if(entry && delivered, LawRule::BusErrorInLaterEntry);
        self.hit_if(others().any(|c| c.status.active), LawRule::BusErrorBesideActive);
        self.hit_if(others().any(|c| c.status.active && c.edge), LawRule::BusErrorBesideLatch);
    }

    // ---- what holds at all times -------------------------------------------

    /// What is demanded after every call and every step.
    fn check(&mut self, seen: &Sight) {
        for (channel, c) in seen.after.iter().enumerate() {
            if self.books[channel].open {
                self.check_lists(channel, c);
            }
        }
        if self.spaces.iter().all(|space| space.may_change.len() <= SHORT) {
            self.compare_memory(seen.memory);
        }
        self.compare_bank(seen.bank);
    }

    /// The delivered list begins the named one and lacks as many operands as
    /// the counter shows.
    fn check_lists(&mut self, channel: usize, c: &Channel) {
        self.count_window(channel, c);
        let book = &mut self.books[channel];
        let begins = book.delivered_begins_named();
        let lacking = book.lacking();
        let shown = c.transfer_count as usize;
        let equal = begins && lacking == Some(0);
        self.demand(begins, channel, "the delivered list does not begin the named one");
        self.demand(lacking == Some(shown), channel, "the lists do not differ by what the counter shows");
        self.demand(equal == (shown == 0), channel, "the lists are equal otherwise than at a counter of zero");
    }

    fn count_window(&mut self, channel: usize, c: &Channel) {
        let (had_reset, had_failing_start) = (self.books[channel].had_reset, self.books[channel].had_failing_start);
        let rule = match c.status {
            Status { active: true, .. } => LawRule::CheckedWhileActive,
            Status { error: true, .. } => LawRule::CheckedAfterError,
            Status { device_ended: true, .. } => LawRule::CheckedAfterDeviceEnd,
            _ => LawRule::CheckedAfterEnd,
        };
        self.counts.hit(if had_reset { LawRule::CheckedAfterReset } else { rule });
        self.hit_if(had_failing_start, LawRule::CheckedAfterFailingStart);
        self.counts.hit(if c.transfer_count == 0 { LawRule::CheckedEqual } else { LawRule::CheckedLacking });
    }

    /// Memory is what stores and answered cycles made of it, and differs from
    /// what it was before the first call only where it may.
    fn compare_memory(&mut self, now: &Memory) {
        self.counts.hit(LawRule::MemoryCompared);
        let same = self.spaces.iter().all(|space| now.bytes_of(space.code) == self.memory.bytes_of(space.code));
        let accounted = self.spaces.iter().all(|space| space.accounts_for(&self.first, now));
        self.demand(same, 0, "memory changed otherwise than by an answered cycle or a store");
        self.demand(accounted, 0, "memory changed where no operand was named to end and nothing was stored");
    }

    /// Devices are what answered cycles made of them.
    fn compare_bank(&mut self, now: &Bank) {
        for channel in 0..4 {
            let (real, shadow) = (&now.devices[channel], &self.bank.devices[channel]);
            let same = real.waiting == shadow.waiting && real.kept == shadow.kept && real.free == shadow.free;
            self.demand(same, channel, "a device changed otherwise than by an answered cycle");
        }
    }
}

/// Counters, addresses and function codes are as before.
fn same_places(before: &Channel, after: &Channel) -> bool {
    let places = |c: &Channel| {
        let counts = [c.transfer_count, c.base_count];
        let addresses = [c.memory_address, c.device_address, c.base_address];
        (counts, addresses, [c.memory_code, c.device_code, c.base_code])
    };
    places(before) == places(after)
}

/// Notes that a byte may change, by space and address.
fn allow(spaces: &mut [Space], memory: &Memory, code: u8, address: u32) {
    let number = memory.space(code);
    for space in spaces.iter_mut().filter(|space| space.number == number) {
        if let Some(may_change) = space.may_change.get_mut(address as usize) {
            *may_change = true;
        }
    }
}

fn is_allowed(spaces: &[Space], memory: &Memory, code: u8, address: u32) -> bool {
    let number = memory.space(code);
    let space = spaces.iter().find(|space| space.number == number);
    space.and_then(|space| space.may_change.get(address as usize)) == Some(&true)
}
