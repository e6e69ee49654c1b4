//! The controller: its registers, starts, request lines and interrupts.

use crate::cover::{Cover, Rule};
use crate::settings::*;
use crate::world::Memory;

/// A call turned down, by its number.
#[derive(Clone, Copy, Debug, PartialEq, Eq)]
pub struct Refusal(pub u8);

pub const NO_REGISTER: Refusal = Refusal(1);
pub const ODD_WORD: Refusal = Refusal(2);
pub const NO_CHANNEL: Refusal = Refusal(3);
pub const WORD_STARTS: Refusal = Refusal(4);
pub const NO_EXCEPTION: Refusal = Refusal(5);
pub const NO_COMMAND: Refusal = Refusal(6);
pub const PAST_MEMORY: Refusal = Refusal(7);
pub const NO_STORE: Refusal = Refusal(8);
pub const NO_INTERRUPT: Refusal = Refusal(9);
pub const FULL_TRACE: Refusal = Refusal(10);

/// What the processor can read or write at an offset. Numbers tell which byte
/// of a longer register is meant; the highest byte is number 0.
#[derive(Clone, Copy, Debug, PartialEq, Eq)]
pub enum Register {
    Status,
    ErrorCode,
    DeviceControl,
    OperationControl,
    SequenceControl,
    ChannelControl,
    TransferCount(usize),
    BaseCount(usize),
    MemoryAddress(usize),
    DeviceAddress(usize),
    BaseAddress(usize),
    NormalVector,
    ErrorVector,
    MemoryCode,
    DeviceCode,
    BaseCode,
    Priority,
    General,
}

/// The channel and register at an offset. The general control register is
/// counted to channel 3, in whose block of offsets it lies.
pub fn register_at(offset: u32) -> Option<(usize, Register)> {
    if offset > 0xFF {
        return None;
    }
    if offset == 0xFF {
        return Some((3, Register::General));
    }
    let within = offset % 64;
    let register = match within {
        0x00 => Register::Status,
        0x01 => Register::ErrorCode,
        0x04 => Register::DeviceControl,
        0x05 => Register::OperationControl,
        0x06 => Register::SequenceControl,
        0x07 => Register::ChannelControl,
        0x0A | 0x0B => Register::TransferCount((within - 0x0A) as usize),
        0x0C..=0x0F => Register::MemoryAddress((within - 0x0C) as usize),
        0x14..=0x17 => Register::DeviceAddress((within - 0x14) as usize),
        0x1A | 0x1B => Register::BaseCount((within - 0x1A) as usize),
        0x1C..=0x1F => Register::BaseAddress((within - 0x1C) as usize),
        0x25 => Register::NormalVector,
        0x27 => Register::ErrorVector,
        0x29 => Register::MemoryCode,
        0x2D => Register::Priority,
        0x31 => Register::DeviceCode,
        0x39 => Register::BaseCode,
        _ => return None,
    };
    Some(((offset / 64) as usize, register))
}

/// Where a channel stands.
#[derive(Clone, Debug, PartialEq, Eq)]
pub enum Phase {
    /// Nothing is under way. An active channel here is before an operand.
    Idle,
    /// An entry of the table is being fetched; these words have come.
    Entry { words: Vec<u16> },
    /// Inside an operand.
    Operand {
        cycles_done: usize,
        /// The bytes of the operand that the source has given.
        held: [u8; 4],
        /// The device has said it is done in a cycle of this operand.
        device_done: bool,
    },
}

#[derive(Clone, Debug, PartialEq, Eq)]
pub struct Channel {
    pub status: Status,
    pub error_code: u8,
    pub device: DeviceControl,
    pub operation: OperationControl,
    pub sequence: SequenceControl,
    pub continue_block: bool,
    pub halt: bool,
    pub interrupt: bool,
    pub transfer_count: u16,
    pub base_count: u16,
    pub memory_address: u32,
    pub device_address: u32,
    pub base_address: u32,
    pub normal_vector: u8,
    pub error_vector: u8,
    pub memory_code: u8,
    pub device_code: u8,
    pub base_code: u8,
    pub priority: u8,
    /// The level of the request line.
    pub line: bool,
    /// A change of the line from off to on not yet answered by an operand.
    pub edge: bool,
    /// No operand of the operation has begun.
    pub before_first: bool,
    pub phase: Phase,
}

impl Channel {
    pub fn new() -> Self {
        Channel {
            status: Status::default(),
            error_code: 0,
            device: DeviceControl::from_byte(0),
            operation: OperationControl::from_byte(0),
            sequence: SequenceControl::from_byte(0),
            continue_block: false,
            halt: false,
            interrupt: false,
            transfer_count: 0,
            base_count: 0,
            memory_address: 0,
            device_address: 0,
            base_address: 0,
            normal_vector: 0x0F,
            error_vector: 0x0F,
            memory_code: 0,
            device_code: 0,
            base_code: 0,
            priority: 0,
            line: false,
            edge: false,
            before_first: false,
            phase: Phase::Idle,
        }
    }

    /// A reset makes all new but counters, addresses, function codes and the
    /// level of the line.
    fn after_reset(&self) -> Self {
        Channel {
            transfer_count: self.transfer_count,
            base_count: self.base_count,
            memory_address: self.memory_address,
            device_address: self.device_address,
            base_address: self.base_address,
            memory_code: self.memory_code,
            device_code: self.device_code,
            base_code: self.base_code,
            line: self.line,
            ..Channel::new()
        }
    }

    /// A channel is inside an operand or an entry once a cycle of it is done.
    pub fn is_inside(&self) -> bool {
        match &self.phase {
            Phase::Idle => false,
            Phase::Entry { words } => !words.is_empty(),
            Phase::Operand { cycles_done, .. } => *cycles_done > 0,
        }
    }

    pub fn must_fetch(&self) -> bool {
        matches!(self.phase, Phase::Entry { .. })
    }

    /// Whether the table has an entry that is not loaded yet.
    pub fn entry_remains(&self) -> bool {
        match self.operation.chain {
            Chain::Array => self.base_count > 0,
            Chain::Linked => self.base_address != 0,
            Chain::None | Chain::Undefined => false,
        }
    }

    /// Whether the next operand is the one that needs no line.
    pub fn next_is_automatic(&self) -> bool {
        match self.operation.requests {
            Requests::AutomaticLimited | Requests::Automatic => true,
            Requests::Line => false,
            Requests::FirstAutomaticThenLine => self.before_first,
        }
    }

    /// Whether something asks for an operand.
    pub fn has_request(&self) -> bool {
        if self.next_is_automatic() {
            true
        } else if self.device.is_cycle_steal() {
            self.edge
        } else {
            self.line
        }
    }

    /// The device side is memory only for a plain bus device with requests
    /// that are always automatic.
    pub fn device_side_is_memory(&self) -> bool {
        self.device.kind == DeviceKind::Bus68000 && self.operation.requests.always_automatic()
    }

    pub fn raises_interrupt(&self) -> bool {
        self.interrupt && self.status.reports() != 0
    }

    /// Clears those reports that stand in a mask; with the error goes its code.
    fn clear_reports(&mut self, mask: u8) {
        if mask & 0x80 != 0 {
            self.status.complete = false;
        }
        if mask & 0x40 != 0 {
            self.status.block = false;
        }
        if mask & 0x20 != 0 {
            self.status.device_ended = false;
        }
        if mask & 0x10 != 0 {
            self.status.error = false;
            self.error_code = 0;
        }
    }

    pub fn control_byte(&self) -> u8 {
        let mut byte = 0;
        if self.continue_block {
            byte += 0x40;
        }
        if self.halt {
            byte += 0x20;
        }
        if self.interrupt {
            byte += 0x08;
        }
        byte
    }

    /// Whether a write to the register is not made now.
    pub fn is_barred(&self, register: Register) -> bool {
        if !self.status.active {
            return false;
        }
        match register {
            Register::DeviceControl
            | Register::OperationControl
            | Register::SequenceControl
            | Register::TransferCount(_)
            | Register::MemoryAddress(_)
            | Register::DeviceAddress(_)
            | Register::MemoryCode
            | Register::DeviceCode => true,
            Register::BaseAddress(_) | Register::BaseCount(_) | Register::BaseCode => {
                self.operation.chain.is_chained()
            }
            _ => false,
        }
    }

    fn read(&self, register: Register) -> u8 {
        match register {
            Register::Status => self.status.to_byte(),
            Register::ErrorCode => self.error_code,
            Register::DeviceControl => self.device.to_byte(),
            Register::OperationControl => self.operation.to_byte(),
            Register::SequenceControl => self.sequence.to_byte(),
            Register::ChannelControl => self.control_byte(),
            Register::TransferCount(i) => self.transfer_count.to_be_bytes()[i],
            Register::BaseCount(i) => self.base_count.to_be_bytes()[i],
            Register::MemoryAddress(i) => self.memory_address.to_be_bytes()[i],
            Register::DeviceAddress(i) => self.device_address.to_be_bytes()[i],
            Register::BaseAddress(i) => self.base_address.to_be_bytes()[i],
            Register::NormalVector => self.normal_vector,
            Register::ErrorVector => self.error_vector,
            Register::MemoryCode => self.memory_code,
            Register::DeviceCode => self.device_code,
            Register::BaseCode => self.base_code,
            Register::Priority => self.priority,
            Register::General => 0,
        }
    }
}

impl Default for Channel {
    fn default() -> Self {
        Channel::new()
    }
}

/// A taken interrupt: which channel, its vector, and the reports seen.
#[derive(Clone, Copy, Debug, PartialEq, Eq)]
pub struct Receipt {
    pub channel: usize,
    pub vector: u8,
    pub seen: u8,
}

/// Why a start is turned down.
#[derive(Clone, Copy, Debug, PartialEq, Eq)]
struct Fault {
    code: u8,
    rule: Rule,
}

#[derive(Clone, Debug)]
pub struct Controller {
    pub channels: [Channel; 4],
    pub general: u8,
    /// The controller has the bus.
    pub bus_flag: bool,
    /// The channel whose cycle was carried out last.
    pub last_served: Option<usize>,
    pub cover: Cover,
}

impl Default for Controller {
    fn default() -> Self {
        Controller::new()
    }
}

fn put_byte2(value: u16, index: usize, byte: u8) -> u16 {
    let mut bytes = value.to_be_bytes();
    bytes[index] = byte;
    u16::from_be_bytes(bytes)
}

fn put_byte4(value: u32, index: usize, byte: u8) -> u32 {
    let mut bytes = value.to_be_bytes();
    bytes[index] = byte;
    u32::from_be_bytes(bytes)
}

impl Controller {
    pub fn new() -> Self {
        Controller {
            channels: [Channel::new(), Channel::new(), Channel::new(), Channel::new()],
            general: 0,
            bus_flag: false,
            last_served: None,
            cover: Cover::new(),
        }
    }

    pub(crate) fn refuse<T>(&mut self, refusal: Refusal) -> Result<T, Refusal> {
        self.cover.hit(match refusal.0 {
            1 => Rule::Refused1,
            2 => Rule::Refused2,
            3 => Rule::Refused3,
            4 => Rule::Refused4,
            5 => Rule::Refused5,
            8 => Rule::Refused8,
            9 => Rule::Refused9,
            _ => Rule::Refused10,
        });
        Err(refusal)
    }

    pub(crate) fn reset(&mut self) {
        for channel in &self.channels {
            match &channel.phase {
                Phase::Operand { .. } if channel.is_inside() => self.cover.hit(Rule::ResetInsideOperand),
                Phase::Entry { .. } if channel.is_inside() => self.cover.hit(Rule::ResetInsideEntry),
                _ => {}
            }
            if channel.line {
                self.cover.hit(Rule::ResetKeepsLine);
            }
        }
        for channel in &mut self.channels {
            *channel = channel.after_reset();
        }
        self.general = 0;
        self.bus_flag = false;
        self.last_served = None;
    }

    // ---- registers -----------------------------------------------------

    fn read_at(&self, place: Option<(usize, Register)>) -> u8 {
        match place {
            None => 0,
            Some((_, Register::General)) => self.general,
            Some((channel, register)) => self.channels[channel].read(register),
        }
    }

    pub fn read_byte(&mut self, offset: u8) -> Result<u8, Refusal> {
        let place = register_at(offset as u32);
        if place.is_none() {
            return self.refuse(NO_REGISTER);
        }
        self.cover.hit(Rule::ReadByte);
        Ok(self.read_at(place))
    }

    /// The two halves of a word, if the word may be accessed at all: a word
    /// with no register in either half is none; one at an odd offset is odd.
    fn halves(&mut self, offset: u8) -> Result<[Option<(usize, Register)>; 2], Refusal> {
        let halves = [register_at(offset as u32), register_at(offset as u32 + 1)];
        if halves[0].is_none() && halves[1].is_none() {
            return self.refuse(NO_REGISTER);
        }
        if offset % 2 == 1 {
            return self.refuse(ODD_WORD);
        }
        if halves[0].is_none() {
            self.cover.hit(Rule::WordWithOneHalf);
        }
        Ok(halves)
    }

    pub fn read_word(&mut self, offset: u8) -> Result<u16, Refusal> {
        let halves = self.halves(offset)?;
        self.cover.hit(Rule::ReadWord);
        Ok(u16::from_be_bytes([self.read_at(halves[0]), self.read_at(halves[1])]))
    }

    pub fn write_byte(&mut self, offset: u8, value: u8) -> Result<(), Refusal> {
        let Some((channel, register)) = register_at(offset as u32) else {
            return self.refuse(NO_REGISTER);
        };
        self.cover.hit(Rule::WriteByte);
        if self.channels[channel].is_barred(register) {
            self.count_barred(register, false);
            self.fail(channel, 2);
        } else {
            self.write_register(channel, register, value);
        }
        Ok(())
    }

    pub fn write_word(&mut self, offset: u8, value: u16) -> Result<(), Refusal> {
        let halves = self.halves(offset)?;
        let bytes = value.to_be_bytes();
        let starts = |i: usize| {
            matches!(halves[i], Some((_, Register::ChannelControl))) && ControlWrite::from_byte(bytes[i]).start
        };
        if starts(0) || starts(1) {
            return self.refuse(WORD_STARTS);
        }
        self.cover.hit(Rule::WriteWord);
        // A word with a barred half is not made, neither half of it.
        for place in halves.iter().flatten() {
            if self.channels[place.0].is_barred(place.1) {
                self.count_barred(place.1, true);
                if halves.iter().flatten().any(|other| !self.channels[other.0].is_barred(other.1)) {
                    self.cover.hit(Rule::BarredOneHalf);
                }
                self.fail(place.0, 2);
                return Ok(());
            }
        }
        for (i, place) in halves.iter().enumerate() {
            if let Some((channel, register)) = place {
                self.write_register(*channel, *register, bytes[i]);
            }
        }
        Ok(())
    }

    fn count_barred(&mut self, register: Register, word: bool) {
        self.cover.hit(match register {
            Register::DeviceControl => Rule::BarredDeviceControl,
            Register::OperationControl => Rule::BarredOperationControl,
            Register::SequenceControl => Rule::BarredSequenceControl,
            Register::TransferCount(_) => Rule::BarredTransferCount,
            Register::MemoryAddress(_) => Rule::BarredMemoryAddress,
            Register::DeviceAddress(_) => Rule::BarredDeviceAddress,
            Register::MemoryCode => Rule::BarredMemoryCode,
            Register::DeviceCode => Rule::BarredDeviceCode,
            Register::BaseAddress(_) => Rule::BarredBaseAddress,
            Register::BaseCount(_) => Rule::BarredBaseCount,
            _ => Rule::BarredBaseCode,
        });
        self.cover.hit(if word { Rule::BarredWord } else { Rule::BarredByte });
    }

    /// A write that is made.
    fn write_register(&mut self, channel: usize, register: Register, value: u8) {
        if register == Register::ChannelControl {
            return self.write_control(channel, ControlWrite::from_byte(value));
        }
        if register == Register::General {
            self.cover.hit(Rule::GeneralWritten);
            self.general = value % 16;
            return;
        }
        if register == Register::Status {
            self.count_cleared(channel, value);
        }
        let c = &mut self.channels[channel];
        match register {
            Register::Status => c.clear_reports(value),
            Register::ErrorCode => self.cover.hit(Rule::ErrorCodeWriteIgnored),
            Register::DeviceControl => c.device = DeviceControl::from_byte(value),
            Register::OperationControl => c.operation = OperationControl::from_byte(value),
            Register::SequenceControl => c.sequence = SequenceControl::from_byte(value),
            Register::TransferCount(i) => c.transfer_count = put_byte2(c.transfer_count, i, value),
            Register::BaseCount(i) => c.base_count = put_byte2(c.base_count, i, value),
            Register::MemoryAddress(i) => c.memory_address = put_byte4(c.memory_address, i, value),
            Register::DeviceAddress(i) => c.device_address = put_byte4(c.device_address, i, value),
            Register::BaseAddress(i) => c.base_address = put_byte4(c.base_address, i, value),
            Register::NormalVector => c.normal_vector = value,
            Register::ErrorVector => c.error_vector = value,
            Register::MemoryCode => c.memory_code = value % 8,
            Register::DeviceCode => c.device_code = value % 8,
            Register::BaseCode => c.base_code = value % 8,
            Register::Priority => c.priority = value % 4,
            Register::ChannelControl | Register::General => {}
        }
    }

    fn count_cleared(&mut self, channel: usize, mask: u8) {
        let status = self.channels[channel].status;
        let cleared = [
            (status.complete, 0x80, Rule::ClearedComplete),
            (status.block, 0x40, Rule::ClearedBlock),
            (status.device_ended, 0x20, Rule::ClearedDeviceEnded),
            (status.error, 0x10, Rule::ClearedError),
        ];
        for (stands, bit, rule) in cleared {
            if stands && mask & bit != 0 {
                self.cover.hit(rule);
            }
        }
    }

    /// Every error: complete and error are set, active and continue cleared,
    /// what is held is dropped, and a first error leaves its code.
    pub(crate) fn fail(&mut self, channel: usize, code: u8) {
        let c = &mut self.channels[channel];
        match &c.phase {
            Phase::Operand { .. } if c.is_inside() => self.cover.hit(Rule::ErrorInsideOperand),
            Phase::Entry { .. } if c.is_inside() => self.cover.hit(Rule::ErrorInsideEntry),
            _ => {}
        }
        if c.status.error {
            self.cover.hit(Rule::ErrorKeepsFirstCode);
        } else {
            c.error_code = code;
        }
        c.status.complete = true;
        c.status.error = true;
        c.status.active = false;
        c.continue_block = false;
        c.phase = Phase::Idle;
    }

    // ---- starting ------------------------------------------------------

    fn write_control(&mut self, channel: usize, write: ControlWrite) {
        // Halt and interrupt are stored whatever else happens.
        let c = &mut self.channels[channel];
        c.halt = write.halt;
        c.interrupt = write.interrupt;
        if write.abort {
            // An abort keeps start and continue from being looked at.
            if c.status.active {
                self.cover.hit(Rule::AbortActive);
                self.fail(channel, 17);
            } else {
                self.cover.hit(Rule::AbortInactive);
            }
        } else if write.start {
            self.start(channel, write.continue_block);
        } else if write.continue_block {
            self.continue_later(channel);
        }
    }

    /// Continue asked for without a start.
    fn continue_later(&mut self, channel: usize) {
        let c = &self.channels[channel];
        if !c.status.active {
            self.cover.hit(Rule::ContinueInactive);
            self.fail(channel, 2);
        } else if c.operation.chain.is_chained() {
            self.cover.hit(Rule::ContinueChained);
            self.fail(channel, 1);
        } else if c.status.block {
            self.cover.hit(Rule::ContinueBlockBit);
            self.fail(channel, 2);
        } else {
            self.cover.hit(Rule::ContinueSetLater);
            self.channels[channel].continue_block = true;
        }
    }

    /// The first check a start does not pass.
    fn start_fault(&self, channel: usize, continue_block: bool) -> Option<Fault> {
        let c = &self.channels[channel];
        let chained = c.operation.chain.is_chained();
        let single = c.device.is_single();
        let size = c.operation.size;
        let port = c.device.port;
        let above_byte = size.above_byte();
        let by_line = !c.operation.requests.always_automatic();
        let single_fits = (size == Size::Byte && port == Port::Bits8) || (size == Size::Word && port == Port::Bits16);
        let checks = [
            // A channel that is active or still has something to report.
            (c.status.active, 2, Rule::Start2Active),
            (c.status.complete, 2, Rule::Start2Complete),
            (c.status.block, 2, Rule::Start2Block),
            (c.status.device_ended, 2, Rule::Start2DeviceEnded),
            (c.status.error, 2, Rule::Start2Error),
            // Settings that mean nothing, or do not go together.
            (c.device.mode == RequestMode::Undefined, 1, Rule::Start1Mode),
            (size == Size::Undefined, 1, Rule::Start1Size),
            (c.operation.chain == Chain::Undefined, 1, Rule::Start1Chain),
            (c.sequence.memory == Counting::Undefined, 1, Rule::Start1MemoryCounting),
            (c.sequence.device == Counting::Undefined, 1, Rule::Start1DeviceCounting),
            (continue_block && chained, 1, Rule::Start1ContinueChained),
            (single && !single_fits, 1, Rule::Start1Single),
            (!single && port == Port::Bits16 && size == Size::Byte && by_line, 1, Rule::Start1ByteByLine),
            // Odd addresses.
            (!chained && above_byte && c.memory_address % 2 == 1, 5, Rule::Start5),
            (!single && port == Port::Bits16 && above_byte && c.device_address % 2 == 1, 6, Rule::Start6),
            (chained && c.base_address % 2 == 1, 7, Rule::Start7),
            // Counts of nothing.
            (!chained && c.transfer_count == 0, 13, Rule::Start13),
            (c.operation.chain == Chain::Array && c.base_count == 0, 15, Rule::Start15),
        ];
        for (holds, code, rule) in checks {
            if holds {
                return Some(Fault { code, rule });
            }
        }
        None
    }

    fn start(&mut self, channel: usize, continue_block: bool) {
        if let Some(fault) = self.start_fault(channel, continue_block) {
            self.cover.hit(fault.rule);
            if self.channels[channel].operation.chain.is_chained() && self.channels[channel].transfer_count > 0 {
                self.cover.hit(Rule::FailingChainedStartKeepsCount);
            }
            return self.fail(channel, fault.code);
        }
        let c = &mut self.channels[channel];
        c.status.active = true;
        if continue_block {
            self.cover.hit(Rule::ContinueSetAtStart);
            c.continue_block = true;
        }
        c.edge = false;
        c.before_first = true;
        match c.operation.chain {
            Chain::Array => self.cover.hit(Rule::StartedArray),
            Chain::Linked if c.base_address == 0 => self.cover.hit(Rule::StartedLinkedAtZero),
            Chain::Linked => self.cover.hit(Rule::StartedLinked),
            _ => self.cover.hit(Rule::StartedUnchained),
        }
        if c.operation.chain.is_chained() {
            c.transfer_count = 0;
            c.phase = Phase::Entry { words: Vec::new() };
        } else {
            c.phase = Phase::Idle;
        }
    }

    // ---- request lines, stores, interrupts -------------------------------

    pub fn set_line(&mut self, channel: u32, level: bool) -> Result<(), Refusal> {
        if channel > 3 {
            return self.refuse(NO_CHANNEL);
        }
        let c = &mut self.channels[channel as usize];
        let rises = level && !c.line;
        c.line = level;
        if c.device.is_cycle_steal() {
            if rises && c.status.active {
                self.cover.hit(if c.edge { Rule::EdgeAlreadyLatched } else { Rule::EdgeLatched });
                c.edge = true;
            } else if rises {
                self.cover.hit(Rule::EdgeWhileInactive);
            } else if level && c.status.active {
                self.cover.hit(Rule::LineOnGivesNoEdge);
            }
        }
        Ok(())
    }

    /// The processor stores one byte.
    pub fn store(&mut self, memory: &mut Memory, code: u32, address: u32, value: u8) -> Result<(), Refusal> {
        if !Memory::is_place(code, address) {
            self.cover.hit(Rule::StoreNoPlace);
            return self.refuse(NO_STORE);
        }
        if !memory.answers(code as u8, address, 1) {
            self.cover.hit(Rule::StoreUnanswered);
            return self.refuse(NO_STORE);
        }
        self.cover.hit(Rule::StoreMade);
        for c in &self.channels {
            if c.is_inside() {
                if let Phase::Operand { .. } = c.phase {
                    let from = c.memory_address % (1 << 24);
                    let near = address >= from && address < from + 4;
                    if c.operation.direction == Direction::MemoryToDevice && near {
                        self.cover.hit(Rule::StoreIntoSourceOfOperand);
                    }
                }
                if let Phase::Entry { words } = &c.phase {
                    let from = c.base_address % (1 << 24);
                    if address >= from && address < from + 2 * words.len() as u32 {
                        self.cover.hit(Rule::StoreIntoFetchedEntry);
                    }
                }
            }
        }
        memory.write(code as u8, address, value);
        Ok(())
    }

    /// Takes the interrupt of the lowest priority number, then channel.
    pub fn take_interrupt(&mut self) -> Result<Receipt, Refusal> {
        let raising = (0..4).filter(|&n| self.channels[n].raises_interrupt());
        let Some(channel) = raising.min_by_key(|&n| (self.channels[n].priority, n)) else {
            return self.refuse(NO_INTERRUPT);
        };
        if (0..channel).any(|n| self.channels[n].raises_interrupt()) {
            self.cover.hit(Rule::TakenByPriority);
        }
        let c = &self.channels[channel];
        self.cover.hit(if c.status.error { Rule::TakenError } else { Rule::TakenNormal });
        Ok(Receipt {
            channel,
            vector: if c.status.error { c.error_vector } else { c.normal_vector },
            seen: c.status.reports(),
        })
    }

    /// Closing clears the reports seen, and no others.
    pub fn close_interrupt(&mut self, receipt: Receipt) {
        let c = &mut self.channels[receipt.channel];
        self.cover.hit(Rule::Closed);
        if c.status.reports() & !receipt.seen != 0 {
            self.cover.hit(Rule::ClosedLeavesUnseen);
        }
        if receipt.seen & 0x10 != 0 && c.status.error {
            self.cover.hit(Rule::ClosedClearsErrorCode);
        }
        c.clear_reports(receipt.seen);
    }
}
