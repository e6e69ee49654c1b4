//! One bus step, and runs of them.

use crate::controller::*;
use crate::cover::Rule;
use crate::settings::*;
use crate::world::{Bank, Memory, Trace};
use std::ops::Range;

/// What the bus says about a step.
#[derive(Clone, Copy, Debug, PartialEq, Eq)]
pub enum Exception {
    None,
    Halt,
    BusError,
    Retry,
    RelinquishAndRetry,
    Reset,
}

impl Exception {
    pub fn from_code(code: u32) -> Option<Exception> {
        match code {
            7 => Some(Exception::None),
            6 => Some(Exception::Halt),
            5 => Some(Exception::BusError),
            4 => Some(Exception::Retry),
            3 => Some(Exception::RelinquishAndRetry),
            0 => Some(Exception::Reset),
            _ => None,
        }
    }
}

#[derive(Clone, Copy, Debug, PartialEq, Eq)]
pub enum CycleKind {
    Read,
    Write,
    EntryWord,
}

/// A cycle as it is reported and recorded.
#[derive(Clone, Debug, PartialEq, Eq)]
pub struct CycleRecord {
    pub channel: usize,
    pub kind: CycleKind,
    pub code: u8,
    pub address: u32,
    pub data: Vec<u8>,
}

/// What a run writes down about a step.
#[derive(Clone, Debug, PartialEq, Eq)]
pub enum Record {
    Cycle(CycleRecord),
    Error { channel: usize, code: u8 },
}

#[derive(Clone, Debug, PartialEq, Eq)]
pub enum Answer {
    Reset,
    Idle,
    Halted,
    Retry,
    Waiting,
    Error { channel: usize, code: u8 },
    Cycle(CycleRecord),
}

/// How a run ended.
#[derive(Clone, Copy, Debug, PartialEq, Eq)]
pub enum RunEnd {
    Done,
    Idle,
    Waiting,
    Full,
}

/// Which side of the channel a cycle of an operand is on.
#[derive(Clone, Copy, Debug, PartialEq, Eq)]
pub enum Side {
    Memory,
    /// The device side, when that is memory too.
    DeviceInMemory,
    /// The channel's own device.
    Device,
    /// Memory and the channel's device in one cycle.
    Both,
}

/// Whether a cycle gathers bytes from the source or hands them on.
#[derive(Clone, Copy, Debug, PartialEq, Eq)]
pub enum Motion {
    FromSource,
    ToDestination,
}

/// One cycle of an operand, as planned before the operand begins.
#[derive(Clone, Debug, PartialEq, Eq)]
pub struct PlannedCycle {
    pub side: Side,
    pub motion: Motion,
    pub code: u8,
    /// The address as it is sent.
    pub address: u32,
    /// Which bytes of the operand are moved.
    pub bytes: Range<usize>,
}

/// Registers are sent modulo 2^24.
pub fn sent(register: u32) -> u32 {
    register % (1 << 24)
}

impl Channel {
    /// The portions of an operand: a long has two of two bytes.
    fn portions(&self) -> impl Iterator<Item = Range<usize>> {
        let (count, bytes) = match self.operation.size {
            Size::Byte => (1, 1),
            Size::Word => (1, 2),
            Size::Long => (2, 2),
            Size::Undefined => (0, 0),
        };
        (0..count).map(move |number| number * bytes..(number + 1) * bytes)
    }

    fn memory_cycle(&self, bytes: Range<usize>, motion: Motion, side: Side) -> PlannedCycle {
        PlannedCycle {
            side,
            motion,
            code: self.memory_code,
            address: sent(self.memory_address.wrapping_add(bytes.start as u32)),
            bytes,
        }
    }

    /// The device side's cycles for one portion: a wide port moves it at
    /// once, a narrow one a byte a cycle at every second address.
    fn device_cycles(&self, portion: Range<usize>, motion: Motion) -> Vec<PlannedCycle> {
        let side = if self.device_side_is_memory() { Side::DeviceInMemory } else { Side::Device };
        let cycle = |offset: usize, bytes: Range<usize>| PlannedCycle {
            side,
            motion,
            code: self.device_code,
            address: sent(self.device_address.wrapping_add(offset as u32)),
            bytes,
        };
        match self.device.port {
            Port::Bits16 => vec![cycle(portion.start, portion)],
            Port::Bits8 => portion.map(|i| cycle(2 * i, i..i + 1)).collect(),
        }
    }

    /// All cycles of the operand at which the address registers stand.
    pub fn operand_plan(&self) -> Vec<PlannedCycle> {
        let mut plan = Vec::new();
        for portion in self.portions() {
            if self.device.is_single() {
                let motion = match self.operation.direction {
                    Direction::MemoryToDevice => Motion::FromSource,
                    Direction::DeviceToMemory => Motion::ToDestination,
                };
                plan.push(self.memory_cycle(portion, motion, Side::Both));
                continue;
            }
            match self.operation.direction {
                Direction::MemoryToDevice => {
                    plan.push(self.memory_cycle(portion.clone(), Motion::FromSource, Side::Memory));
                    plan.extend(self.device_cycles(portion, Motion::ToDestination));
                }
                Direction::DeviceToMemory => {
                    plan.extend(self.device_cycles(portion.clone(), Motion::FromSource));
                    plan.push(self.memory_cycle(portion, Motion::ToDestination, Side::Memory));
                }
            }
        }
        plan
    }

    /// How far the device address moves for one operand.
    pub fn device_stride(&self) -> u32 {
        let bytes = self.operation.size.bytes() as u32;
        match self.device.port {
            Port::Bits16 => bytes,
            Port::Bits8 => 2 * bytes,
        }
    }
}

/// What the chosen channel would do in this step.
enum Work {
    EntryWord { code: u8, address: u32 },
    Operand { plan: Vec<PlannedCycle>, index: usize },
}

impl Controller {
    /// The channel the step works for. One inside an operand or an entry is
    /// kept. Else the lowest priority number wins, and among equals the first
    /// one going round from the channel after the last served.
    fn choose(&mut self) -> Option<usize> {
        if let Some(inside) = (0..4).find(|&n| self.channels[n].is_inside()) {
            if self.channels[inside].halt {
                self.cover.hit(Rule::KeptThroughHalt);
            }
            for rival in 0..4 {
                let better = self.channels[rival].priority < self.channels[inside].priority;
                if rival != inside && better && self.is_ready(rival) {
                    self.cover.hit(Rule::KeptAgainstPriority);
                }
            }
            return Some(inside);
        }
        let first = match self.last_served {
            None => 0,
            Some(channel) => (channel + 1) % 4,
        };
        let mut best: Option<usize> = None;
        for turn in 0..4 {
            let n = (first + turn) % 4;
            let c = &self.channels[n];
            if c.status.active && c.halt && (c.must_fetch() || c.has_request()) {
                self.cover.hit(Rule::HaltedChannelPassedOver);
            }
            if !self.is_ready(n) {
                continue;
            }
            match best {
                None => best = Some(n),
                Some(b) if self.channels[n].priority < self.channels[b].priority => {
                    self.cover.hit(Rule::ChosenByPriority);
                    best = Some(n);
                }
                Some(b) if self.channels[n].priority == self.channels[b].priority => {
                    self.cover.hit(Rule::ChosenByRound);
                }
                Some(_) => {}
            }
        }
        best
    }

    fn is_ready(&self, n: usize) -> bool {
        let c = &self.channels[n];
        c.status.active && !c.halt && (c.must_fetch() || c.has_request())
    }

    pub fn step(&mut self, memory: &mut Memory, bank: &mut Bank, code: u32, done: bool) -> Result<Answer, Refusal> {
        let Some(exception) = Exception::from_code(code) else {
            return self.refuse(NO_EXCEPTION);
        };
        let answer = self.make_step(memory, bank, exception, done);
        self.cover.hit(match &answer {
            Answer::Reset => Rule::AnsweredReset,
            Answer::Idle => Rule::AnsweredIdle,
            Answer::Halted => Rule::AnsweredHalted,
            Answer::Retry => Rule::AnsweredRetry,
            Answer::Waiting => Rule::AnsweredWaiting,
            Answer::Error { code: 7, .. } => Rule::AnsweredError7,
            Answer::Error { code: 9, .. } => Rule::AnsweredError9,
            Answer::Error { code: 10, .. } => Rule::AnsweredError10,
            Answer::Error { .. } => Rule::AnsweredError11,
            Answer::Cycle(cycle) => match cycle.kind {
                CycleKind::Read => Rule::AnsweredRead,
                CycleKind::Write => Rule::AnsweredWrite,
                CycleKind::EntryWord => Rule::AnsweredEntryWord,
            },
        });
        Ok(answer)
    }

    fn make_step(&mut self, memory: &mut Memory, bank: &mut Bank, exception: Exception, done: bool) -> Answer {
        if exception == Exception::Reset {
            self.reset();
            return Answer::Reset;
        }
        let Some(channel) = self.choose() else {
            self.bus_flag = false;
            return Answer::Idle;
        };
        let c = &self.channels[channel];
        let inside = c.is_inside();
        if matches!(&c.phase, Phase::Entry { words } if words.is_empty()) && c.base_address % 2 == 1 {
            if exception != Exception::None {
                self.cover.hit(Rule::OddEntryBeforeException);
            }
            return self.step_error(channel, 7);
        }
        let work = self.work_of(channel);
        match exception {
            Exception::Halt if !self.bus_flag => {
                if inside {
                    self.cover.hit(Rule::HaltedInside);
                }
                return Answer::Halted;
            }
            Exception::Retry => {
                self.cover.hit(if inside { Rule::RetryInside } else { Rule::RetryOutside });
                return Answer::Retry;
            }
            Exception::RelinquishAndRetry => {
                self.cover.hit(Rule::Relinquished);
                self.bus_flag = false;
                return Answer::Retry;
            }
            Exception::BusError => {
                self.cover.hit(match Self::bus_error_code(&work) {
                    9 if Self::is_both(&work) => Rule::BusErrorSingle,
                    9 => Rule::BusErrorMemory,
                    10 => Rule::BusErrorDevice,
                    _ => Rule::BusErrorEntry,
                });
                return self.step_error(channel, Self::bus_error_code(&work));
            }
            _ => {}
        }
        if !Self::device_ready(channel, &work, bank) {
            self.count_waiting(channel, &work, memory, done, exception);
            return Answer::Waiting;
        }
        if !Self::place_answered(&work, memory) {
            self.cover.hit(match Self::bus_error_code(&work) {
                9 if Self::is_both(&work) => Rule::UnansweredSingle,
                9 => Rule::UnansweredMemory,
                10 => Rule::UnansweredDevice,
                _ => Rule::UnansweredEntry,
            });
            return self.step_error(channel, Self::bus_error_code(&work));
        }
        // One cycle is carried out.
        if exception == Exception::Halt {
            self.cover.hit(Rule::HaltWithBus);
        }
        self.bus_flag = exception != Exception::Halt;
        self.last_served = Some(channel);
        let record = match work {
            Work::EntryWord { code, address } => self.fetch_word(channel, code, address, memory),
            Work::Operand { plan, index } => self.operand_cycle(channel, &plan, index, memory, bank, done),
        };
        Answer::Cycle(record)
    }

    /// An error the step itself answers: the bus is given up.
    fn step_error(&mut self, channel: usize, code: u8) -> Answer {
        self.fail(channel, code);
        self.bus_flag = false;
        Answer::Error { channel, code }
    }

    fn work_of(&self, channel: usize) -> Work {
        let c = &self.channels[channel];
        match &c.phase {
            Phase::Entry { words } => {
                Work::EntryWord {
                    code: c.base_code,
                    address: sent(c.base_address.wrapping_add(2 * words.len() as u32)),
                }
            }
            Phase::Idle => Work::Operand { plan: c.operand_plan(), index: 0 },
            Phase::Operand { cycles_done, .. } => Work::Operand { plan: c.operand_plan(), index: *cycles_done },
        }
    }

    fn is_both(work: &Work) -> bool {
        matches!(work, Work::Operand { plan, index } if plan[*index].side == Side::Both)
    }

    fn bus_error_code(work: &Work) -> u8 {
        match work {
            Work::EntryWord { .. } => 11,
            Work::Operand { plan, index } => match plan[*index].side {
                Side::Memory | Side::Both => 9,
                Side::DeviceInMemory | Side::Device => 10,
            },
        }
    }

    /// A cycle without the channel's device waits for nobody.
    fn device_ready(channel: usize, work: &Work, bank: &Bank) -> bool {
        let Work::Operand { plan, index } = work else {
            return true;
        };
        let cycle = &plan[*index];
        let count = cycle.bytes.len();
        match (cycle.side, cycle.motion) {
            (Side::Memory, _) | (Side::DeviceInMemory, _) => true,
            (Side::Device, Motion::FromSource) => bank.ready_to_give(channel, count),
            (Side::Device, Motion::ToDestination) => bank.ready_to_take(channel, count),
            // In single addressing the motion is told from the memory's side.
            (Side::Both, Motion::FromSource) => bank.ready_to_take(channel, count),
            (Side::Both, Motion::ToDestination) => bank.ready_to_give(channel, count),
        }
    }

    fn place_answered(work: &Work, memory: &Memory) -> bool {
        match work {
            Work::EntryWord { code, address } => memory.answers(*code, *address, 2),
            Work::Operand { plan, index } => {
                let cycle = &plan[*index];
                cycle.side == Side::Device || memory.answers(cycle.code, cycle.address, cycle.bytes.len())
            }
        }
    }

    fn count_waiting(&mut self, channel: usize, work: &Work, memory: &Memory, done: bool, exception: Exception) {
        if let Work::Operand { plan, index } = work {
            let cycle = &plan[*index];
            self.cover.hit(match (cycle.side, cycle.motion) {
                (Side::Both, Motion::FromSource) => Rule::WaitingSingleTake,
                (Side::Both, Motion::ToDestination) => Rule::WaitingSingleGive,
                (_, Motion::FromSource) => Rule::WaitingDualGive,
                (_, Motion::ToDestination) => Rule::WaitingDualTake,
            });
            if cycle.side == Side::Both && !Self::place_answered(work, memory) {
                self.cover.hit(Rule::WaitingAtUnansweredPlace);
            }
        }
        if done {
            self.cover.hit(Rule::DoneWhileWaiting);
        }
        if exception == Exception::Halt {
            self.cover.hit(Rule::WaitingUnderHalt);
        }
        if self.channels[channel].is_inside() {
            self.cover.hit(Rule::WaitingInside);
        }
    }

    // ---- entries of a table ----------------------------------------------

    fn fetch_word(&mut self, channel: usize, code: u8, address: u32, memory: &Memory) -> CycleRecord {
        let data: Vec<u8> = (0..2).filter_map(|i| memory.read(code, address + i)).collect();
        let c = &mut self.channels[channel];
        let needed = c.operation.chain.entry_words();
        let mut entry = Vec::new();
        if let Phase::Entry { words } = &mut c.phase {
            if address == 0 && !words.is_empty() {
                self.cover.hit(Rule::WrappedBaseAddress24);
            }
            words.push(u16::from_be_bytes([data[0], data[1]]));
            entry = words.clone();
        }
        if entry.len() == needed {
            self.load_entry(channel, &entry);
        }
        CycleRecord { channel, kind: CycleKind::EntryWord, code, address, data }
    }

    /// The whole entry has come: only now do registers take it.
    fn load_entry(&mut self, channel: usize, words: &[u16]) {
        let c = &mut self.channels[channel];
        let joined = |high: u16, low: u16| ((high as u32) << 16) + low as u32;
        c.phase = Phase::Idle;
        c.memory_address = joined(words[0], words[1]);
        c.transfer_count = words[2];
        if c.operation.chain == Chain::Array {
            if c.base_address.checked_add(6).is_none() {
                self.cover.hit(Rule::WrappedBaseAddress32);
            }
            c.base_address = c.base_address.wrapping_add(6);
            c.base_count = c.base_count.wrapping_sub(1);
            self.cover.hit(Rule::LoadedArrayEntry);
        } else {
            c.base_address = joined(words[3], words[4]);
            self.cover.hit(Rule::LoadedLinkedEntry);
            if c.base_address != 0 && sent(c.base_address) == 0 {
                self.cover.hit(Rule::LinkSentAsZero);
            }
        }
        if !c.before_first {
            self.cover.hit(Rule::LoadedLaterEntry);
        }
        if c.operation.size.above_byte() && c.memory_address % 2 == 1 {
            self.cover.hit(Rule::Entry5);
            self.fail(channel, 5);
        } else if c.transfer_count == 0 {
            self.cover.hit(Rule::Entry13);
            self.fail(channel, 13);
        }
    }

    // ---- operands ----------------------------------------------------------

    fn operand_cycle(
        &mut self,
        channel: usize,
        plan: &[PlannedCycle],
        index: usize,
        memory: &mut Memory,
        bank: &mut Bank,
        done: bool,
    ) -> CycleRecord {
        let cycle = &plan[index];
        if index == 0 {
            self.begin_operand(channel);
        }
        let (mut held, mut device_done) = match self.channels[channel].phase {
            Phase::Operand { held, device_done, .. } => (held, device_done),
            _ => ([0; 4], false),
        };
        let count = cycle.bytes.len();
        let data: Vec<u8> = match (cycle.side, cycle.motion) {
            (Side::Memory | Side::DeviceInMemory, Motion::FromSource) => read_memory(memory, cycle),
            (Side::Device, Motion::FromSource) => bank.give(channel, count),
            (Side::Memory | Side::DeviceInMemory, Motion::ToDestination) => {
                let data = held[cycle.bytes.clone()].to_vec();
                self.count_table_overlap(memory, cycle);
                write_memory(memory, cycle, &data);
                data
            }
            (Side::Device, Motion::ToDestination) => {
                let data = held[cycle.bytes.clone()].to_vec();
                bank.take(channel, &data);
                data
            }
            (Side::Both, Motion::FromSource) => {
                let data = read_memory(memory, cycle);
                bank.take(channel, &data);
                data
            }
            (Side::Both, Motion::ToDestination) => {
                let data = bank.give(channel, count);
                write_memory(memory, cycle, &data);
                data
            }
        };
        held[cycle.bytes.clone()].copy_from_slice(&data);
        if done {
            if matches!(cycle.side, Side::Device | Side::Both) {
                device_done = true;
                if index + 1 < plan.len() {
                    self.cover.hit(Rule::DoneInEarlyCycle);
                }
            } else {
                self.cover.hit(Rule::DoneInMemoryCycle);
            }
        }
        self.channels[channel].phase = Phase::Operand { cycles_done: index + 1, held, device_done };
        if index + 1 == plan.len() {
            self.deliver(channel, device_done);
        }
        CycleRecord {
            channel,
            kind: match cycle.motion {
                Motion::FromSource => CycleKind::Read,
                Motion::ToDestination => CycleKind::Write,
            },
            code: cycle.code,
            address: cycle.address,
            data,
        }
    }

    /// The first cycle of an operand spends what asked for it.
    fn begin_operand(&mut self, channel: usize) {
        let c = &mut self.channels[channel];
        if c.next_is_automatic() {
            if c.operation.requests == Requests::FirstAutomaticThenLine {
                self.cover.hit(Rule::FirstOperandAutomatic);
                if c.edge {
                    self.cover.hit(Rule::AutomaticKeepsEdge);
                }
            }
        } else if c.device.is_cycle_steal() {
            c.edge = false;
            self.cover.hit(if c.operation.requests == Requests::Line {
                Rule::OperandByEdge
            } else {
                Rule::LaterOperandByEdge
            });
        } else {
            self.cover.hit(if c.operation.requests == Requests::Line {
                Rule::OperandByLevel
            } else {
                Rule::LaterOperandByLevel
            });
        }
        c.before_first = false;
    }

    /// The last cycle of an operand is carried out.
    fn deliver(&mut self, channel: usize, device_done: bool) {
        self.count_operand(channel);
        let c = &mut self.channels[channel];
        c.phase = Phase::Idle;
        c.transfer_count = c.transfer_count.wrapping_sub(1);
        let bytes = c.operation.size.bytes() as u32;
        c.memory_address = c.sequence.memory.moved(c.memory_address, bytes);
        if !c.device.is_single() {
            c.device_address = c.sequence.device.moved(c.device_address, c.device_stride());
        }
        let nothing_left = c.transfer_count == 0 && !c.entry_remains();
        if device_done && !nothing_left {
            self.cover.hit(if c.transfer_count == 0 { Rule::DoneWithEntriesLeft } else { Rule::DoneWithinBlock });
            if c.device.is_single() {
                self.cover.hit(Rule::DoneSingle);
            }
            c.status.complete = true;
            c.status.device_ended = true;
            c.status.active = false;
            c.continue_block = false;
            return;
        }
        if device_done {
            self.cover.hit(if c.continue_block { Rule::DoneIgnoredContinued } else { Rule::DoneIgnoredAtEnd });
        }
        if c.transfer_count == 0 {
            self.end_of_block(channel);
        }
    }

    fn end_of_block(&mut self, channel: usize) {
        let c = &mut self.channels[channel];
        if c.entry_remains() {
            self.cover.hit(Rule::GoesOnInTable);
            c.phase = Phase::Entry { words: Vec::new() };
        } else if c.continue_block {
            self.continue_block(channel);
        } else {
            self.cover.hit(match c.operation.chain {
                Chain::Array => Rule::EndedArray,
                Chain::Linked => Rule::EndedLinked,
                _ => Rule::EndedUnchained,
            });
            c.status.complete = true;
            c.status.active = false;
        }
    }

    /// The next block comes from the base registers, in the same step.
    fn continue_block(&mut self, channel: usize) {
        let c = &mut self.channels[channel];
        if c.base_count == 0 {
            self.cover.hit(Rule::Continue15);
            return self.fail(channel, 15);
        }
        c.memory_address = c.base_address;
        c.memory_code = c.base_code;
        c.transfer_count = c.base_count;
        c.continue_block = false;
        c.status.block = true;
        self.cover.hit(Rule::ContinuedBlock);
        if c.operation.size.above_byte() && c.memory_address % 2 == 1 {
            self.cover.hit(Rule::Continue5);
            self.fail(channel, 5);
        }
    }

    // ---- counting for coverage ---------------------------------------------

    fn count_table_overlap(&mut self, memory: &Memory, cycle: &PlannedCycle) {
        for c in &self.channels {
            if !c.status.active || !c.operation.chain.is_chained() || !(c.must_fetch() || c.entry_remains()) {
                continue;
            }
            let table = sent(c.base_address);
            let same_space = memory.space(c.base_code) == memory.space(cycle.code);
            if same_space && cycle.address >= table && cycle.address < table + 2 * c.operation.chain.entry_words() as u32 {
                self.cover.hit(Rule::DataWrittenIntoTable);
            }
        }
    }

    fn count_operand(&mut self, channel: usize) {
        let c = &self.channels[channel];
        let up = c.operation.direction == Direction::DeviceToMemory;
        let wide = c.device.port == Port::Bits16;
        let rule = if c.device.is_single() {
            match (wide, up) {
                (false, false) => Rule::SingleByteToDevice,
                (false, true) => Rule::SingleByteToMemory,
                (true, false) => Rule::SingleWordToDevice,
                (true, true) => Rule::SingleWordToMemory,
            }
        } else {
            match (c.operation.size, wide, up) {
                (Size::Byte, false, false) => Rule::Byte8ToDevice,
                (Size::Byte, false, true) => Rule::Byte8ToMemory,
                (Size::Byte, true, false) => Rule::Byte16ToDevice,
                (Size::Byte, true, true) => Rule::Byte16ToMemory,
                (Size::Word, false, false) => Rule::Word8ToDevice,
                (Size::Word, false, true) => Rule::Word8ToMemory,
                (Size::Word, true, false) => Rule::Word16ToDevice,
                (Size::Word, true, true) => Rule::Word16ToMemory,
                (_, false, false) => Rule::Long8ToDevice,
                (_, false, true) => Rule::Long8ToMemory,
                (_, true, false) => Rule::Long16ToDevice,
                (_, true, true) => Rule::Long16ToMemory,
            }
        };
        self.cover.hit(rule);
        if !c.device.is_single() {
            self.cover.hit(match (c.device.kind, c.device_side_is_memory()) {
                (DeviceKind::Bus68000, true) => Rule::DualWithMemory,
                (DeviceKind::Bus68000, false) => Rule::DualWithDeviceByLine,
                (_, _) if c.operation.requests.always_automatic() => Rule::Dual6800Automatic,
                _ => Rule::Dual6800ByLine,
            });
        }
        let bytes = c.operation.size.bytes() as u32;
        let memory_after = c.sequence.memory.moved(c.memory_address, bytes);
        let device_after = c.sequence.device.moved(c.device_address, c.device_stride());
        let memory_rules = [Rule::WrappedMemoryAddress24, Rule::WrappedMemoryAddress32];
        count_move(&mut self.cover, c.memory_address, memory_after, memory_rules);
        self.cover.hit(match c.sequence.memory {
            Counting::Up => Rule::MemoryUp,
            Counting::Down => Rule::MemoryDown,
            _ => Rule::MemoryStill,
        });
        if !c.device.is_single() {
            let device_rules = [Rule::WrappedDeviceAddress24, Rule::WrappedDeviceAddress32];
            count_move(&mut self.cover, c.device_address, device_after, device_rules);
            self.cover.hit(match c.sequence.device {
                Counting::Up => Rule::DeviceUp,
                Counting::Down => Rule::DeviceDown,
                _ => Rule::DeviceStill,
            });
        }
        if c.continue_block && c.transfer_count > 1 {
            self.cover.hit(Rule::DeliveredBeforeContinue);
        }
    }

    // ---- runs --------------------------------------------------------------

    /// So many steps without exception and without the done line, each leaving
    /// a record; idle and waiting leave none and end the run.
    pub fn run(
        &mut self,
        memory: &mut Memory,
        bank: &mut Bank,
        trace: &mut Trace<Record>,
        steps: u32,
    ) -> Result<(RunEnd, usize), Refusal> {
        self.run_with(memory, bank, trace, steps, |controller, memory, bank| controller.step(memory, bank, 7, false))
    }

    /// A run whose steps are made by the caller, who may look at each.
    pub fn run_with(
        &mut self,
        memory: &mut Memory,
        bank: &mut Bank,
        trace: &mut Trace<Record>,
        steps: u32,
        mut one_step: impl FnMut(&mut Controller, &mut Memory, &mut Bank) -> Result<Answer, Refusal>,
    ) -> Result<(RunEnd, usize), Refusal> {
        if steps >= 1 && trace.is_full() {
            return self.refuse(FULL_TRACE);
        }
        if steps == 0 && trace.is_full() {
            self.cover.hit(Rule::RunOfNothingOverFullTrace);
        }
        let mut recorded = 0;
        let mut after_error = false;
        for made in 1..=steps {
            let record = match one_step(self, memory, bank)? {
                Answer::Cycle(cycle) => Record::Cycle(cycle),
                Answer::Error { channel, code } => Record::Error { channel, code },
                Answer::Waiting => {
                    self.cover.hit(Rule::RunWaiting);
                    return Ok((RunEnd::Waiting, recorded));
                }
                _ => {
                    self.cover.hit(Rule::RunIdle);
                    return Ok((RunEnd::Idle, recorded));
                }
            };
            if after_error {
                self.cover.hit(Rule::RunGoesOnAfterError);
            }
            after_error = matches!(record, Record::Error { .. });
            trace.add(record);
            recorded += 1;
            if trace.is_full() {
                if made == steps {
                    self.cover.hit(Rule::RunDoneAndFull);
                } else {
                    self.cover.hit(Rule::RunFull);
                    return Ok((RunEnd::Full, recorded));
                }
            }
        }
        self.cover.hit(Rule::RunDone);
        Ok((RunEnd::Done, recorded))
    }
}

fn count_move(cover: &mut crate::cover::Cover, before: u32, after: u32, rules: [Rule; 2]) {
    let near_top = |register: u32| register > u32::MAX - 16;
    let near_bottom = |register: u32| register < 16;
    if (near_top(before) && near_bottom(after)) || (near_bottom(before) && near_top(after)) {
        cover.hit(rules[1]);
    } else if before >> 24 != after >> 24 {
        cover.hit(rules[0]);
    }
}

fn read_memory(memory: &Memory, cycle: &PlannedCycle) -> Vec<u8> {
    (0..cycle.bytes.len() as u32).filter_map(|i| memory.read(cycle.code, cycle.address + i)).collect()
}

fn write_memory(memory: &mut Memory, cycle: &PlannedCycle, data: &[u8]) {
    for (i, &byte) in data.iter().enumerate() {
        memory.write(cycle.code, cycle.address + i as u32, byte);
    }
}
