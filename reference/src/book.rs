//! The book of one channel: which operands its latest operation has named,
//! which it has delivered, and what is gathered of the next one.
//!
//! A book is kept from outside: from the calls, their answers and the
//! registers before each call. It shares nothing with the plan of cycles that
//! a step works from.

use crate::controller::Channel;
use crate::settings::*;
use crate::step::{CycleKind, CycleRecord};

/// Where one byte of an operand comes from or goes to, as sent.
#[derive(Clone, Copy, Debug, PartialEq, Eq)]
pub enum End {
    Memory { code: u8, address: u32 },
    Device { code: u8, address: u32 },
    /// The device in single addressing has neither code nor address.
    PlainDevice,
}

impl End {
    pub fn is_memory(self) -> bool {
        matches!(self, End::Memory { .. })
    }
}

/// One operand, byte by byte: from where, to where.
pub type Operand = Vec<(End, End)>;

/// A block of named operands, worked out one by one when asked for.
#[derive(Clone, Debug)]
pub struct Block {
    pub count: usize,
    pub memory_address: u32,
    pub memory_code: u8,
    /// How many operands the operation had named before this block.
    named_before: usize,
}

/// A register moved on so many times; registers count modulo 2^32.
fn moved(counting: Counting, register: u32, stride: u32, times: usize) -> u32 {
    let way = stride.wrapping_mul(times as u32);
    match counting {
        Counting::Up => register.wrapping_add(way),
        Counting::Down => register.wrapping_sub(way),
        _ => register,
    }
}

/// The address as it is sent.
pub fn sent(register: u32) -> u32 {
    register & 0xFF_FFFF
}

/// The settings of an operation; they cannot change while it runs.
#[derive(Clone, Debug)]
pub struct Plan {
    pub device: DeviceControl,
    pub operation: OperationControl,
    sequence: SequenceControl,
    device_code: u8,
    device_address: u32,
    device_in_memory: bool,
}

impl Plan {
    fn of(c: &Channel) -> Plan {
        Plan {
            device: c.device,
            operation: c.operation,
            sequence: c.sequence,
            device_code: c.device_code,
            device_address: c.device_address,
            device_in_memory: c.device.kind == DeviceKind::Bus68000 && c.operation.requests.always_automatic(),
        }
    }

    pub fn bytes(&self) -> usize {
        self.operation.size.bytes()
    }

    /// Whether operands end in memory.
    pub fn writes_memory(&self) -> bool {
        self.operation.direction == Direction::DeviceToMemory || self.device_in_memory
    }

    /// Where the memory address register stands before an operand of a block.
    fn memory_register(&self, block: &Block, number: usize) -> u32 {
        moved(self.sequence.memory, block.memory_address, self.bytes() as u32, number)
    }

    /// Where the device address register stands once so many are delivered.
    /// Single addressing leaves it alone.
    fn device_register(&self, delivered: usize) -> u32 {
        let bytes = self.bytes() as u32;
        let stride = if self.device.port == Port::Bits8 { 2 * bytes } else { bytes };
        if self.device.is_single() {
            self.device_address
        } else {
            moved(self.sequence.device, self.device_address, stride, delivered)
        }
    }

    /// One byte of a named operand: from where, to where.
    fn byte_of(&self, block: &Block, number: usize, i: u32) -> (End, End) {
        let memory = self.memory_register(block, number).wrapping_add(i);
        let step = if self.device.port == Port::Bits8 { 2 * i } else { i };
        let device = self.device_register(block.named_before + number).wrapping_add(step);
        let memory_end = End::Memory { code: block.memory_code, address: sent(memory) };
        let device_end = if self.device.is_single() {
            End::PlainDevice
        } else if self.device_in_memory {
            End::Memory { code: self.device_code, address: sent(device) }
        } else {
            End::Device { code: self.device_code, address: sent(device) }
        };
        match self.operation.direction {
            Direction::MemoryToDevice => (memory_end, device_end),
            Direction::DeviceToMemory => (device_end, memory_end),
        }
    }

    /// Where a byte of an answered cycle comes from and where it goes. Single
    /// addressing tells both at once, otherwise a cycle tells one of the two.
    pub fn ends(&self, kind: CycleKind, code: u8, address: u32) -> (Option<End>, Option<End>) {
        let reads = kind == CycleKind::Read;
        let to_device = self.operation.direction == Direction::MemoryToDevice;
        let memory = End::Memory { code, address };
        if self.device.is_single() {
            let (from, to) = if to_device { (memory, End::PlainDevice) } else { (End::PlainDevice, memory) };
            return (Some(from), Some(to));
        }
        let end = if reads == to_device || self.device_in_memory { memory } else { End::Device { code, address } };
        if reads {
            (Some(end), None)
        } else {
            (None, Some(end))
        }
    }

    /// In single addressing the cycle is named after what memory does.
    pub fn names_cycle(&self, kind: CycleKind) -> bool {
        let reads = self.operation.direction == Direction::MemoryToDevice;
        !self.device.is_single() || (kind == CycleKind::Read) == reads
    }
}

/// Whether a start passes its checks, told from the registers before it.
pub fn start_passes(c: &Channel, continued: bool) -> bool {
    let chained = c.operation.chain.is_chained();
    c.status == Status::default() && settings_fit(c) && !(continued && chained) && addresses_fit(c) && counts_fit(c)
}

fn settings_fit(c: &Channel) -> bool {
    let by_line = !c.operation.requests.always_automatic();
    let known = c.device.mode != RequestMode::Undefined
        && c.operation.size != Size::Undefined
        && c.operation.chain != Chain::Undefined
        && c.sequence.memory != Counting::Undefined
        && c.sequence.device != Counting::Undefined;
    let together = match (c.device.is_single(), c.operation.size, c.device.port) {
        (true, Size::Byte, Port::Bits8) | (true, Size::Word, Port::Bits16) => true,
        (true, _, _) => false,
        (false, Size::Byte, Port::Bits16) => !by_line,
        (false, _, _) => true,
    };
    known && together
}

fn addresses_fit(c: &Channel) -> bool {
    let chained = c.operation.chain.is_chained();
    let above_byte = c.operation.size.above_byte();
    let wide = !c.device.is_single() && c.device.port == Port::Bits16;
    let memory_fits = chained || !above_byte || c.memory_address.is_multiple_of(2);
    let device_fits = !wide || !above_byte || c.device_address.is_multiple_of(2);
    let base_fits = !chained || c.base_address.is_multiple_of(2);
    memory_fits && device_fits && base_fits
}

fn counts_fit(c: &Channel) -> bool {
    match c.operation.chain {
        Chain::Array => c.base_count > 0,
        Chain::Linked => true,
        _ => c.transfer_count > 0,
    }
}

/// An answered word of an entry, and where it was read.
#[derive(Clone, Copy, Debug, PartialEq, Eq)]
pub struct EntryWord {
    pub code: u8,
    pub address: u32,
    pub word: u16,
}

impl EntryWord {
    pub fn of(cycle: &CycleRecord) -> EntryWord {
        let word = cycle.data.iter().fold(0, |word, &byte| word * 256 + byte as u16);
        EntryWord { code: cycle.code, address: cycle.address, word }
    }
}

/// The book of one channel.
#[derive(Clone, Debug, Default)]
pub struct Book {
    pub plan: Option<Plan>,
    blocks: Vec<Block>,
    named: usize,
    delivered: Vec<Operand>,
    /// So many operands at the front of the delivered list are known to be
    /// those at the front of the named one. Both lists only grow.
    fitting: usize,
    /// No write to the counter was made since the start.
    pub open: bool,
    /// A reset came since the start.
    pub had_reset: bool,
    /// A later start failed.
    pub had_failing_start: bool,
    pub from: Vec<(End, u8)>,
    pub to: Vec<(End, u8)>,
    pub entry: Vec<EntryWord>,
    /// The device said in a cycle of the gathered operand that it is done.
    pub device_done: bool,
    /// A store changed a source of the gathered operand after it was read.
    pub source_changed: bool,
}

impl Book {
    /// The book of an operation that begins: both lists are empty.
    pub fn of_start(before: &Channel) -> Book {
        Book { plan: Some(Plan::of(before)), open: true, ..Book::default() }
    }

    /// Names a block of operands.
    pub fn name(&mut self, count: u16, memory_address: u32, memory_code: u8) {
        let count = count as usize;
        self.blocks.push(Block { count, memory_address, memory_code, named_before: self.named });
        self.named += count;
    }

    /// The places in memory where the operands of the last block end.
    pub fn last_destinations(&self) -> impl Iterator<Item = (u8, u32)> + '_ {
        let plan = self.plan.as_ref().filter(|plan| plan.writes_memory());
        let both = plan.and_then(|plan| Some((plan, self.blocks.last()?)));
        both.into_iter().flat_map(|(plan, block)| {
            let bytes = (0..block.count).flat_map(|number| (0..plan.bytes() as u32).map(move |i| (number, i)));
            bytes.filter_map(|(number, i)| match plan.byte_of(block, number, i).1 {
                End::Memory { code, address } => Some((code, address)),
                _ => None,
            })
        })
    }

    /// The block that names an operand, and the operand's number within it.
    fn place_of(&self, number: usize) -> Option<(&Plan, &Block, usize)> {
        let plan = self.plan.as_ref()?;
        let index = self.blocks.partition_point(|block| block.named_before <= number);
        let block = self.blocks.get(index.checked_sub(1)?)?;
        let within = number - block.named_before;
        (within < block.count).then_some((plan, block, within))
    }

    /// A named operand; the first is number 0.
    pub fn named_operand(&self, number: usize) -> Option<Operand> {
        let (plan, block, within) = self.place_of(number)?;
        Some((0..plan.bytes() as u32).map(|i| plan.byte_of(block, within, i)).collect())
    }

    /// Where both address registers stand, in all their bits, at the first
    /// operand named and not delivered.
    pub fn next_registers(&self) -> Option<(u32, u32)> {
        let (plan, block, within) = self.place_of(self.delivered.len())?;
        Some((plan.memory_register(block, within), plan.device_register(self.delivered.len())))
    }

    /// Whether what is gathered begins the first operand not delivered.
    pub fn gathered_begins_next(&self) -> bool {
        let Some(next) = self.named_operand(self.delivered.len()) else {
            return false;
        };
        let from_begins = self.from.len() <= next.len() && self.from.iter().zip(&next).all(|(f, n)| f.0 == n.0);
        let to_begins = self.to.len() <= next.len() && self.to.iter().zip(&next).all(|(t, n)| t.0 == n.1);
        from_begins && to_begins
    }

    /// Adds the gathered operand to the delivered ones.
    pub fn deliver(&mut self) {
        let operand = self.from.iter().zip(&self.to).map(|(from, to)| (from.0, to.0)).collect();
        self.delivered.push(operand);
        self.drop_gathered();
    }

    pub fn drop_gathered(&mut self) {
        self.from.clear();
        self.to.clear();
        self.entry.clear();
        self.device_done = false;
        self.source_changed = false;
    }

    /// Whether the delivered list begins the named one.
    pub fn delivered_begins_named(&mut self) -> bool {
        while self.fitting < self.delivered.len()
            && self.named_operand(self.fitting).as_ref() == self.delivered.get(self.fitting)
        {
            self.fitting += 1;
        }
        self.fitting == self.delivered.len()
    }

    pub fn delivered(&self) -> usize {
        self.delivered.len()
    }

    /// Whether the first operand not delivered is not of the first block.
    pub fn in_later_block(&self) -> bool {
        self.place_of(self.delivered.len()).is_some_and(|(_, block, _)| block.named_before > 0)
    }

    /// How many named operands the delivered list lacks.
    pub fn lacking(&self) -> Option<usize> {
        self.named.checked_sub(self.delivered.len())
    }
}
