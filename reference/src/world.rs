//! What a controller works on: memories and the devices of the channels.

use std::collections::VecDeque;

pub const ADDRESSES: usize = 1 << 24;

/// A memory answers places, which are a function code and an address.
#[derive(Clone, Debug)]
pub enum Memory {
    /// Every code names the same bytes; places below the length are answered.
    Flat(Vec<u8>),
    /// Codes 4 to 7 go to one memory, codes 0 to 3 to another.
    Split { upper: Box<Memory>, lower: Box<Memory> },
}

impl Memory {
    pub fn split(upper: Memory, lower: Memory) -> Memory {
        Memory::Split { upper: Box::new(upper), lower: Box::new(lower) }
    }

    fn byte_of(&self, code: u8, address: u32) -> Option<&u8> {
        match self {
            Memory::Flat(bytes) => bytes.get(address as usize),
            Memory::Split { upper, lower } => {
                if code >= 4 { upper.byte_of(code, address) } else { lower.byte_of(code, address) }
            }
        }
    }

    fn byte_mut(&mut self, code: u8, address: u32) -> Option<&mut u8> {
        match self {
            Memory::Flat(bytes) => bytes.get_mut(address as usize),
            Memory::Split { upper, lower } => {
                if code >= 4 { upper.byte_mut(code, address) } else { lower.byte_mut(code, address) }
            }
        }
    }

    /// Whether a code and an address are a place at all.
    pub fn is_place(code: u32, address: u32) -> bool {
        code <= 7 && (address as usize) < ADDRESSES
    }

    /// A word is answered if both its bytes are.
    pub fn answers(&self, code: u8, address: u32, bytes: usize) -> bool {
        (0..bytes as u32).all(|i| self.byte_of(code, address + i).is_some())
    }

    /// The byte at an answered place.
    pub fn read(&self, code: u8, address: u32) -> Option<u8> {
        self.byte_of(code, address).copied()
    }

    /// Sets one byte; an unanswered place changes nothing.
    pub fn write(&mut self, code: u8, address: u32, value: u8) {
        if let Some(byte) = self.byte_mut(code, address) {
            *byte = value;
        }
    }

    /// The number of the space a code names bytes in.
    pub fn space(&self, code: u8) -> u8 {
        match self {
            Memory::Flat(_) => 0,
            Memory::Split { upper, lower } => {
                if code >= 4 { 128 + upper.space(code) / 2 } else { lower.space(code) / 2 }
            }
        }
    }

    /// All bytes of the space a code names.
    pub fn bytes_of(&self, code: u8) -> &[u8] {
        match self {
            Memory::Flat(bytes) => bytes,
            Memory::Split { upper, lower } => {
                if code >= 4 { upper.bytes_of(code) } else { lower.bytes_of(code) }
            }
        }
    }

    /// All bytes of one space of a memory that is split at most once.
    pub fn whole(&self, space: u32) -> Option<&[u8]> {
        match (self, space) {
            (Memory::Flat(bytes), 0) => Some(bytes),
            (Memory::Split { upper, .. }, 1) => upper.whole(0),
            (Memory::Split { lower, .. }, 0) => lower.whole(0),
            _ => None,
        }
    }
}

/// The device of one channel: bytes waiting to be read, bytes kept, and the
/// places still free.
#[derive(Clone, Debug, Default)]
pub struct Device {
    pub waiting: VecDeque<u8>,
    pub kept: Vec<u8>,
    pub free: usize,
}

impl Device {
    pub fn tape(bytes: &[u8]) -> Device {
        Device { waiting: bytes.iter().copied().collect(), ..Device::default() }
    }

    pub fn printer(places: usize) -> Device {
        Device { free: places, ..Device::default() }
    }
}

/// The devices of all four channels.
#[derive(Clone, Debug, Default)]
pub struct Bank {
    pub devices: [Device; 4],
}

impl Bank {
    /// One device serving one channel; nothing on the others.
    pub fn only(channel: usize, device: Device) -> Bank {
        let mut bank = Bank::default();
        bank.devices[channel] = device;
        bank
    }

    /// Channels below the border from the first bank, the others from the second.
    pub fn of_two(first: Bank, border: usize, second: Bank) -> Bank {
        let mut bank = second;
        for (channel, device) in first.devices.into_iter().enumerate() {
            if channel < border {
                bank.devices[channel] = device;
            }
        }
        bank
    }

    pub fn ready_to_give(&self, channel: usize, bytes: usize) -> bool {
        self.devices[channel].waiting.len() >= bytes
    }

    pub fn ready_to_take(&self, channel: usize, bytes: usize) -> bool {
        self.devices[channel].free >= bytes
    }

    /// Hands over and drops the first bytes that wait.
    pub fn give(&mut self, channel: usize, bytes: usize) -> Vec<u8> {
        if self.ready_to_give(channel, bytes) {
            self.devices[channel].waiting.drain(..bytes).collect()
        } else {
            Vec::new()
        }
    }

    /// Adds bytes to the end of the kept list and uses as many places.
    pub fn take(&mut self, channel: usize, bytes: &[u8]) {
        if self.ready_to_take(channel, bytes.len()) {
            let device = &mut self.devices[channel];
            device.kept.extend_from_slice(bytes);
            device.free -= bytes.len();
        }
    }
}

/// A bounded queue of records.
#[derive(Clone, Debug)]
pub struct Trace<T> {
    places: usize,
    records: VecDeque<T>,
}

impl<T> Trace<T> {
    pub fn new(places: usize) -> Self {
        Trace { places, records: VecDeque::new() }
    }

    pub fn is_full(&self) -> bool {
        self.records.len() >= self.places
    }

    pub fn len(&self) -> usize {
        self.records.len()
    }

    pub fn is_empty(&self) -> bool {
        self.records.is_empty()
    }

    /// Adds a record behind the others; a full queue does not take it.
    pub fn add(&mut self, record: T) -> bool {
        if self.is_full() {
            return false;
        }
        self.records.push_back(record);
        true
    }

    /// Moves the oldest records out, as many as asked for, as exist, and as
    /// fit into the room of the second list.
    pub fn move_oldest(&mut self, wanted: usize, into: &mut Vec<T>, room: usize) -> usize {
        let count = wanted.min(self.records.len()).min(room);
        into.extend(self.records.drain(..count));
        count
    }
}

#[cfg(test)]
mod tests {
    use super::*;

    #[test]
    fn a_bank_of_two_is_cut_at_its_border() {
        let first = Bank::of_two(Bank::only(0, Device::tape(b"ab")), 1, Bank::only(1, Device::printer(2)));
        let mut bank = Bank::of_two(first, 1, Bank::only(1, Device::tape(b"cd")));
        assert_eq!(bank.give(0, 2), b"ab");
        assert!(!bank.ready_to_give(0, 1));
        assert!(!bank.ready_to_take(1, 1));
        assert_eq!(bank.give(1, 3), b"");
        assert_eq!(bank.give(1, 1), b"c");
    }

    #[test]
    fn a_split_memory_keeps_two_spaces() {
        let mut memory = Memory::split(Memory::Flat(vec![1, 2]), Memory::Flat(vec![3]));
        memory.write(7, 1, 9);
        memory.write(3, 1, 8);
        assert_eq!(memory.read(4, 1), Some(9));
        assert_eq!(memory.read(0, 1), None);
        assert!(memory.answers(5, 0, 2));
        assert!(!memory.answers(2, 0, 2));
        assert_eq!(memory.space(4), memory.space(7));
        assert_ne!(memory.space(3), memory.space(4));
    }

    #[test]
    fn moving_takes_what_exists_and_fits() {
        let mut trace = Trace::new(3);
        assert!(trace.add(1) && trace.add(2) && trace.add(3) && !trace.add(4));
        let mut out = Vec::new();
        assert_eq!(trace.move_oldest(2, &mut out, 1), 1);
        assert_eq!(trace.move_oldest(9, &mut out, 9), 2);
        assert_eq!(out, [1, 2, 3]);
    }
}
