//! The settings of a channel, taken apart into named choices.
//!
//! Each group knows how it is written into a register byte and how it reads
//! back. Bits that carry no meaning are not kept, so they read as 0.

/// How a request line asks for operands.
#[derive(Clone, Copy, Debug, PartialEq, Eq)]
pub enum RequestMode {
    Burst,
    Undefined,
    StealWithoutHold,
    StealWithHold,
}

/// What stands at the device side of a channel.
#[derive(Clone, Copy, Debug, PartialEq, Eq)]
pub enum DeviceKind {
    Bus68000,
    Bus6800,
    Acknowledge,
    AcknowledgeReady,
}

#[derive(Clone, Copy, Debug, PartialEq, Eq)]
pub enum Port {
    Bits8,
    Bits16,
}

/// The device control register.
#[derive(Clone, Copy, Debug, PartialEq, Eq)]
pub struct DeviceControl {
    pub mode: RequestMode,
    pub kind: DeviceKind,
    pub port: Port,
}

impl DeviceControl {
    pub fn from_byte(byte: u8) -> Self {
        DeviceControl {
            mode: match byte / 64 {
                0 => RequestMode::Burst,
                1 => RequestMode::Undefined,
                2 => RequestMode::StealWithoutHold,
                _ => RequestMode::StealWithHold,
            },
            kind: match byte / 16 % 4 {
                0 => DeviceKind::Bus68000,
                1 => DeviceKind::Bus6800,
                2 => DeviceKind::Acknowledge,
                _ => DeviceKind::AcknowledgeReady,
            },
            port: if byte / 8 % 2 == 1 { Port::Bits16 } else { Port::Bits8 },
        }
    }

    pub fn to_byte(self) -> u8 {
        let mode = match self.mode {
            RequestMode::Burst => 0,
            RequestMode::Undefined => 1,
            RequestMode::StealWithoutHold => 2,
            RequestMode::StealWithHold => 3,
        };
        let kind = match self.kind {
            DeviceKind::Bus68000 => 0,
            DeviceKind::Bus6800 => 1,
            DeviceKind::Acknowledge => 2,
            DeviceKind::AcknowledgeReady => 3,
        };
        let port = match self.port {
            Port::Bits8 => 0,
            Port::Bits16 => 1,
        };
        mode * 64 + kind * 16 + port * 8
    }

    pub fn is_cycle_steal(self) -> bool {
        matches!(self.mode, RequestMode::StealWithoutHold | RequestMode::StealWithHold)
    }

    /// Single addressing moves memory and device in one cycle.
    pub fn is_single(self) -> bool {
        matches!(self.kind, DeviceKind::Acknowledge | DeviceKind::AcknowledgeReady)
    }
}

#[derive(Clone, Copy, Debug, PartialEq, Eq)]
pub enum Direction {
    MemoryToDevice,
    DeviceToMemory,
}

#[derive(Clone, Copy, Debug, PartialEq, Eq)]
pub enum Size {
    Byte,
    Word,
    Long,
    Undefined,
}

impl Size {
    /// The bytes of one operand. The undefined size never gets past a start.
    pub fn bytes(self) -> usize {
        match self {
            Size::Byte => 1,
            Size::Word => 2,
            Size::Long => 4,
            Size::Undefined => 0,
        }
    }

    pub fn above_byte(self) -> bool {
        self != Size::Byte
    }
}

#[derive(Clone, Copy, Debug, PartialEq, Eq)]
pub enum Chain {
    None,
    Undefined,
    Array,
    Linked,
}

impl Chain {
    pub fn is_chained(self) -> bool {
        matches!(self, Chain::Array | Chain::Linked)
    }

    /// How many words an entry of the table has.
    pub fn entry_words(self) -> usize {
        match self {
            Chain::Array => 3,
            Chain::Linked => 5,
            _ => 0,
        }
    }
}

/// Who asks for the operands.
#[derive(Clone, Copy, Debug, PartialEq, Eq)]
pub enum Requests {
    AutomaticLimited,
    Automatic,
    Line,
    FirstAutomaticThenLine,
}

impl Requests {
    pub fn always_automatic(self) -> bool {
        matches!(self, Requests::AutomaticLimited | Requests::Automatic)
    }
}

/// The operation control register.
#[derive(Clone, Copy, Debug, PartialEq, Eq)]
pub struct OperationControl {
    pub direction: Direction,
    pub size: Size,
    pub chain: Chain,
    pub requests: Requests,
}

impl OperationControl {
    pub fn from_byte(byte: u8) -> Self {
        OperationControl {
            direction: if byte / 128 == 1 { Direction::DeviceToMemory } else { Direction::MemoryToDevice },
            size: match byte / 16 % 4 {
                0 => Size::Byte,
                1 => Size::Word,
                2 => Size::Long,
                _ => Size::Undefined,
            },
            chain: match byte / 4 % 4 {
                0 => Chain::None,
                1 => Chain::Undefined,
                2 => Chain::Array,
                _ => Chain::Linked,
            },
            requests: match byte % 4 {
                0 => Requests::AutomaticLimited,
                1 => Requests::Automatic,
                2 => Requests::Line,
                _ => Requests::FirstAutomaticThenLine,
            },
        }
    }

    pub fn to_byte(self) -> u8 {
        let direction = match self.direction {
            Direction::MemoryToDevice => 0,
            Direction::DeviceToMemory => 1,
        };
        let size = match self.size {
            Size::Byte => 0,
            Size::Word => 1,
            Size::Long => 2,
            Size::Undefined => 3,
        };
        let chain = match self.chain {
            Chain::None => 0,
            Chain::Undefined => 1,
            Chain::Array => 2,
            Chain::Linked => 3,
        };
        let requests = match self.requests {
            Requests::AutomaticLimited => 0,
            Requests::Automatic => 1,
            Requests::Line => 2,
            Requests::FirstAutomaticThenLine => 3,
        };
        direction * 128 + size * 16 + chain * 4 + requests
    }
}

/// How an address register moves from operand to operand.
#[derive(Clone, Copy, Debug, PartialEq, Eq)]
pub enum Counting {
    Still,
    Up,
    Down,
    Undefined,
}

impl Counting {
    fn from_bits(bits: u8) -> Self {
        match bits % 4 {
            0 => Counting::Still,
            1 => Counting::Up,
            2 => Counting::Down,
            _ => Counting::Undefined,
        }
    }

    fn to_bits(self) -> u8 {
        match self {
            Counting::Still => 0,
            Counting::Up => 1,
            Counting::Down => 2,
            Counting::Undefined => 3,
        }
    }

    /// The register moved on once; registers count modulo 2^32.
    pub fn moved(self, register: u32, by: u32) -> u32 {
        match self {
            Counting::Up => register.wrapping_add(by),
            Counting::Down => register.wrapping_sub(by),
            Counting::Still | Counting::Undefined => register,
        }
    }
}

/// The sequence control register.
#[derive(Clone, Copy, Debug, PartialEq, Eq)]
pub struct SequenceControl {
    pub memory: Counting,
    pub device: Counting,
}

impl SequenceControl {
    pub fn from_byte(byte: u8) -> Self {
        SequenceControl { memory: Counting::from_bits(byte / 4), device: Counting::from_bits(byte) }
    }

    pub fn to_byte(self) -> u8 {
        self.memory.to_bits() * 4 + self.device.to_bits()
    }
}

/// The status of a channel.
#[derive(Clone, Copy, Debug, Default, PartialEq, Eq)]
pub struct Status {
    /// The operation is complete.
    pub complete: bool,
    /// A continued block has been loaded.
    pub block: bool,
    /// The device ended the operation before its count.
    pub device_ended: bool,
    pub error: bool,
    pub active: bool,
}

impl Status {
    pub fn to_byte(self) -> u8 {
        let mut byte = 0;
        if self.complete {
            byte += 0x80;
        }
        if self.block {
            byte += 0x40;
        }
        if self.device_ended {
            byte += 0x20;
        }
        if self.error {
            byte += 0x10;
        }
        if self.active {
            byte += 0x08;
        }
        byte
    }

    /// The four bits that report something: everything but the active bit.
    pub fn reports(self) -> u8 {
        Status { active: false, ..self }.to_byte()
    }
}

/// A write to the channel control register, taken apart.
#[derive(Clone, Copy, Debug, PartialEq, Eq)]
pub struct ControlWrite {
    pub start: bool,
    pub continue_block: bool,
    pub halt: bool,
    pub abort: bool,
    pub interrupt: bool,
}

impl ControlWrite {
    pub fn from_byte(byte: u8) -> Self {
        ControlWrite {
            start: byte / 128 == 1,
            continue_block: byte / 64 % 2 == 1,
            halt: byte / 32 % 2 == 1,
            abort: byte / 16 % 2 == 1,
            interrupt: byte / 8 % 2 == 1,
        }
    }
}

#[cfg(test)]
mod tests {
    use super::*;

    #[test]
    fn bytes_read_back_without_meaningless_bits() {
        for byte in 0..=255u8 {
            assert_eq!(DeviceControl::from_byte(byte).to_byte(), byte & 0xF8);
            assert_eq!(OperationControl::from_byte(byte).to_byte(), byte & 0xBF);
            assert_eq!(SequenceControl::from_byte(byte).to_byte(), byte & 0x0F);
        }
    }
}
