//! Making random sequences and scripts.
//!
//! The maker plays every line as it writes it, so it can see what the
//! channels are doing and keep operations going most of the time.

use crate::board::{Board, LINE_LIMIT};
use crate::controller::Channel;
use crate::controller::Phase;
use crate::play::Player;
use crate::settings::*;
use crate::text::show_bytes;

/// A small generator of numbers that look random, the same for each seed.
#[derive(Clone, Debug)]
pub struct Random {
    state: u64,
}

impl Random {
    pub fn new(seed: u64) -> Self {
        Random { state: seed }
    }

    pub fn draw(&mut self) -> u64 {
        self.state = self.state.wrapping_add(0x9E37_79B9_7F4A_7C15);
        let mut z = self.state;
        z = (z ^ (z >> 30)).wrapping_mul(0xBF58_476D_1CE4_E5B9);
        z = (z ^ (z >> 27)).wrapping_mul(0x94D0_49BB_1331_11EB);
        z ^ (z >> 31)
    }

    /// A number below the limit.
    pub fn below(&mut self, limit: u32) -> u32 {
        (self.draw() % limit.max(1) as u64) as u32
    }

    /// A number from one to the other, both included.
    pub fn between(&mut self, low: u32, high: u32) -> u32 {
        low + self.below(high - low + 1)
    }

    /// True so many times in a thousand.
    pub fn chance(&mut self, in_thousand: u32) -> bool {
        self.below(1000) < in_thousand
    }

    pub fn byte(&mut self) -> u8 {
        self.below(256) as u8
    }

    pub fn bytes(&mut self, count: usize) -> Vec<u8> {
        (0..count).map(|_| self.byte()).collect()
    }

    pub fn pick<T: Copy>(&mut self, choices: &[T]) -> T {
        choices[self.below(choices.len() as u32) as usize]
    }
}

/// What may appear in a sequence.
#[derive(Clone, Copy, Debug)]
pub struct Options {
    pub receipts: bool,
    pub bad_lines: bool,
    /// A memory that answers every address may be drawn.
    pub huge_memory: bool,
}

/// Offsets of one channel's registers, as the maker writes them.
mod at {
    pub const STATUS: u32 = 0x00;
    pub const DEVICE: u32 = 0x04;
    pub const OPERATION: u32 = 0x05;
    pub const SEQUENCE: u32 = 0x06;
    pub const CONTROL: u32 = 0x07;
    pub const TRANSFER_COUNT: u32 = 0x0A;
    pub const MEMORY_ADDRESS: u32 = 0x0C;
    pub const DEVICE_ADDRESS: u32 = 0x14;
    pub const BASE_COUNT: u32 = 0x1A;
    pub const BASE_ADDRESS: u32 = 0x1C;
    pub const NORMAL_VECTOR: u32 = 0x25;
    pub const ERROR_VECTOR: u32 = 0x27;
    pub const MEMORY_CODE: u32 = 0x29;
    pub const PRIORITY: u32 = 0x2D;
    pub const DEVICE_CODE: u32 = 0x31;
    pub const BASE_CODE: u32 = 0x39;
}

/// The settings of an operation about to be started.
#[derive(Clone, Debug)]
struct Intent {
    device: DeviceControl,
    operation: OperationControl,
    sequence: SequenceControl,
    memory_code: u8,
    device_code: u8,
    base_code: u8,
}

/// What the maker needs from whatever plays its lines.
trait Stage {
    /// The device of the channel gives rather than takes.
    fn gives(&self, channel: usize) -> bool;
    /// How many places a code has from address 0 on.
    fn length(&self, code: u8) -> u32;
    fn write_byte(&self, offset: u32, value: u8) -> String;
    fn write_word(&self, offset: u32, value: u16) -> Option<String>;
    /// Lines that put bytes into memory.
    fn put(&self, code: u8, address: u32, bytes: &[u8]) -> Vec<String>;
    fn has_devices(&self) -> bool;
}

impl Stage for Player {
    fn gives(&self, channel: usize) -> bool {
        self.world.as_ref().is_some_and(|world| !world.bank.devices[channel].waiting.is_empty())
    }

    fn length(&self, code: u8) -> u32 {
        let Some(world) = &self.world else {
            return 0;
        };
        let space = if code >= 4 { 1 } else { 0 };
        let bytes = world.memory.whole(space).or_else(|| world.memory.whole(0));
        bytes.map_or(0, |bytes| bytes.len() as u32)
    }

    fn write_byte(&self, offset: u32, value: u8) -> String {
        format!("wb {offset:02X} {value:02X}")
    }

    fn write_word(&self, offset: u32, value: u16) -> Option<String> {
        Some(format!("ww {offset:02X} {value:04X}"))
    }

    fn put(&self, code: u8, address: u32, bytes: &[u8]) -> Vec<String> {
        let place = |i: usize| address.wrapping_add(i as u32) % (1 << 24);
        bytes.iter().enumerate().map(|(i, byte)| format!("store {} {:06X} {:02X}", code, place(i), byte)).collect()
    }

    fn has_devices(&self) -> bool {
        true
    }
}

impl Stage for Board {
    fn gives(&self, _channel: usize) -> bool {
        false
    }

    fn length(&self, _code: u8) -> u32 {
        0x1000
    }

    fn write_byte(&self, offset: u32, value: u8) -> String {
        format!("W {offset:02X} {value:02X}")
    }

    fn write_word(&self, _offset: u32, _value: u16) -> Option<String> {
        None
    }

    fn put(&self, _code: u8, address: u32, bytes: &[u8]) -> Vec<String> {
        let address = address % (1 << 24);
        vec![format!("F {:06X} {}", address, show_bytes(bytes.iter().copied()))]
    }

    fn has_devices(&self) -> bool {
        false
    }
}

/// Draws an address for a code: mostly low, so that areas collide.
fn draw_address(random: &mut Random, length: u32, even: bool) -> u32 {
    let huge = length == 1 << 24;
    let low = match random.below(100) {
        0..=54 => random.below(length.clamp(1, 0x50)),
        55..=79 => random.below(length),
        80..=83 => length.saturating_sub(random.between(1, 12)),
        84..=92 if huge => random.pick(&[0xFF_FFF0, 0xFF_FFF8, 0xFF_FFFA, 0xFF_FFFC, 0xFF_FFFE, 0xFF_FFFF]),
        84 => length.wrapping_add(random.below(8)),
        85 => random.below(1 << 24),
        _ => random.below(length.clamp(1, 0x20)),
    } % (1 << 24);
    let high = match random.below(100) {
        0..=74 => 0,
        75..=89 => 0xFF,
        90..=94 => 0x5A,
        _ => random.below(256),
    };
    let address = high << 24 | low;
    if even && !random.chance(30) {
        address & !1
    } else {
        address
    }
}

fn draw_device_address(random: &mut Random, length: u32, even: bool, in_memory: bool) -> u32 {
    if in_memory || random.chance(400) {
        return draw_address(random, length, even);
    }
    let address = random.pick(&[0x7000, 0xFF_FFFA, 0xFFFF_FFFA, 0xFF_FFFE, 2, 0x1234_5678, 0xFFFF_FFFE, 0]);
    if random.chance(200) && !even {
        address + 1
    } else {
        address
    }
}

fn draw_count(random: &mut Random) -> u16 {
    match random.below(100) {
        0..=4 => 0,
        5..=34 => 1,
        35..=54 => 2,
        55..=69 => 3,
        70..=95 => random.between(4, 12) as u16,
        96..=98 => random.between(10, 300) as u16,
        _ => random.pick(&[0xFFFF, 0x0100, 0x8000]),
    }
}

fn draw_counting(random: &mut Random) -> Counting {
    match random.below(100) {
        0..=64 => Counting::Up,
        65..=79 => Counting::Down,
        80..=98 => Counting::Still,
        _ => Counting::Undefined,
    }
}

/// Draws settings that mostly make sense together.
fn draw_intent(random: &mut Random, stage: &dyn Stage, channel: usize) -> Intent {
    let gives = stage.gives(channel);
    let with_device = stage.has_devices() && random.chance(500) || random.chance(30);
    let single = with_device && random.chance(400);
    let mode = match random.below(100) {
        0..=49 => RequestMode::Burst,
        50..=73 => RequestMode::StealWithoutHold,
        74..=98 => RequestMode::StealWithHold,
        _ => RequestMode::Undefined,
    };
    let mut port = if random.chance(500) { Port::Bits16 } else { Port::Bits8 };
    let mut size = match random.below(100) {
        0..=32 => Size::Byte,
        33..=65 => Size::Word,
        66..=98 => Size::Long,
        _ => Size::Undefined,
    };
    let mut requests = random.pick(&[
        Requests::Automatic,
        Requests::AutomaticLimited,
        Requests::Automatic,
        Requests::Line,
        Requests::FirstAutomaticThenLine,
    ]);
    let kind = if single {
        if random.chance(970) {
            size = if random.chance(500) { Size::Byte } else { Size::Word };
            port = if size == Size::Byte { Port::Bits8 } else { Port::Bits16 };
        }
        random.pick(&[DeviceKind::Acknowledge, DeviceKind::AcknowledgeReady])
    } else if with_device {
        let kind = random.pick(&[DeviceKind::Bus68000, DeviceKind::Bus6800]);
        if kind == DeviceKind::Bus68000 && requests.always_automatic() {
            requests = Requests::Line;
        }
        if !requests.always_automatic() && port == Port::Bits16 && size == Size::Byte && random.chance(930) {
            port = Port::Bits8;
        }
        kind
    } else {
        requests = if random.chance(700) { Requests::Automatic } else { Requests::AutomaticLimited };
        DeviceKind::Bus68000
    };
    let to_memory = if with_device && random.chance(900) { gives } else { random.chance(500) };
    let chain = match random.below(100) {
        0..=54 => Chain::None,
        55..=76 => Chain::Array,
        77..=98 => Chain::Linked,
        _ => Chain::Undefined,
    };
    Intent {
        device: DeviceControl { mode, kind, port },
        operation: OperationControl {
            direction: if to_memory { Direction::DeviceToMemory } else { Direction::MemoryToDevice },
            size,
            chain,
            requests,
        },
        sequence: SequenceControl { memory: draw_counting(random), device: draw_counting(random) },
        memory_code: random.below(8) as u8,
        device_code: random.below(8) as u8,
        base_code: random.below(8) as u8,
    }
}

/// Lines writing a number into a register, by bytes or words.
fn write_number(random: &mut Random, stage: &dyn Stage, offset: u32, bytes: &[u8]) -> Vec<String> {
    let mut lines = Vec::new();
    let by_words = random.chance(750);
    for (i, pair) in bytes.chunks(2).enumerate() {
        let place = offset + 2 * i as u32;
        let word = match pair {
            [high, low] if by_words => stage.write_word(place, u16::from_be_bytes([*high, *low])),
            _ => None,
        };
        match word {
            Some(line) => lines.push(line),
            None => {
                for (j, byte) in pair.iter().enumerate() {
                    lines.push(stage.write_byte(place + j as u32, *byte));
                }
            }
        }
    }
    if random.chance(100) {
        lines.reverse();
    }
    lines
}

fn with_loose_bits(random: &mut Random, byte: u8, loose: u8) -> u8 {
    if random.chance(200) {
        byte | (random.byte() & loose)
    } else {
        byte
    }
}

/// The words of a table and where they go; also the base address and count.
fn draw_table(random: &mut Random, stage: &dyn Stage, intent: &Intent) -> (Vec<String>, u32, u16) {
    let mut lines = Vec::new();
    let even = intent.operation.size.above_byte();
    let entries = random.between(1, 3);
    let length = stage.length(intent.base_code);
    let draw_entry = |random: &mut Random| {
        let address = draw_address(random, stage.length(intent.memory_code), even);
        let count = match random.below(100) {
            0..=4 => 0,
            5..=54 => 1,
            55..=84 => 2,
            _ => random.between(3, 5) as u16,
        };
        let mut bytes = address.to_be_bytes().to_vec();
        bytes.extend_from_slice(&count.to_be_bytes());
        bytes
    };
    let draw_base = |random: &mut Random| {
        let base = draw_address(random, length, false) & !1;
        if random.chance(25) {
            base | 1
        } else {
            base
        }
    };
    let base = if random.chance(60) { 0 } else { draw_base(random) };
    if intent.operation.chain == Chain::Linked {
        let mut place = base;
        for number in 1..=entries {
            let next = match random.below(100) {
                _ if number == entries && !random.chance(100) => 0,
                0..=5 => draw_base(random) | 1,
                6..=8 => 0x5A00_0000,
                _ => draw_base(random),
            };
            let mut bytes = draw_entry(random);
            bytes.extend_from_slice(&next.to_be_bytes());
            lines.extend(stage.put(intent.base_code, place, &bytes));
            place = next;
        }
    } else {
        let mut place = base;
        for _ in 0..entries {
            let bytes = draw_entry(random);
            lines.extend(stage.put(intent.base_code, place, &bytes));
            place = place.wrapping_add(6);
        }
    }
    let count = match random.below(100) {
        0..=2 => 0,
        3..=92 => entries as u16,
        _ => entries as u16 + 1,
    };
    (lines, base, count)
}

/// The lines that set a channel up and start it.
fn draw_start(random: &mut Random, stage: &dyn Stage, channel: usize) -> Vec<String> {
    let intent = draw_intent(random, stage, channel);
    let start = 64 * channel as u32;
    let chained = intent.operation.chain.is_chained();
    let even = intent.operation.size.above_byte();
    let in_memory = intent.device.kind == DeviceKind::Bus68000 && intent.operation.requests.always_automatic();
    let mut lines = Vec::new();

    let clear = if random.chance(930) { 0xF0 } else { random.pick(&[0xB0, 0xD0, 0xE0, 0x90, 0x70, 0x80, 0x00, 0xD0, 0x90]) };
    lines.push(stage.write_byte(start + at::STATUS, clear));
    let device = with_loose_bits(random, intent.device.to_byte(), 0x07);
    let operation = with_loose_bits(random, intent.operation.to_byte(), 0x40);
    lines.extend(write_number(random, stage, start + at::DEVICE, &[device, operation]));
    let sequence = with_loose_bits(random, intent.sequence.to_byte(), 0xF0);
    lines.push(stage.write_byte(start + at::SEQUENCE, sequence));
    if random.chance(950) {
        let count = draw_count(random);
        lines.extend(write_number(random, stage, start + at::TRANSFER_COUNT, &count.to_be_bytes()));
    }
    if random.chance(920) {
        let address = draw_address(random, stage.length(intent.memory_code), even);
        lines.extend(write_number(random, stage, start + at::MEMORY_ADDRESS, &address.to_be_bytes()));
    }
    if !intent.device.is_single() || random.chance(200) {
        let wide = even && intent.device.port == Port::Bits16;
        let address = draw_device_address(random, stage.length(intent.device_code), wide, in_memory);
        let address = if wide { address & !1 | random.chance(25) as u32 } else { address };
        lines.extend(write_number(random, stage, start + at::DEVICE_ADDRESS, &address.to_be_bytes()));
    }
    let continued = !chained && random.chance(300);
    if chained {
        let (table, base, count) = draw_table(random, stage, &intent);
        lines.extend(table);
        lines.extend(write_number(random, stage, start + at::BASE_ADDRESS, &base.to_be_bytes()));
        if intent.operation.chain == Chain::Array || random.chance(100) {
            lines.extend(write_number(random, stage, start + at::BASE_COUNT, &count.to_be_bytes()));
        }
    } else if continued || random.chance(150) {
        let base = draw_address(random, stage.length(intent.base_code), even);
        let base = if random.chance(70) { base | 1 } else { base };
        let count = draw_count(random);
        lines.extend(write_number(random, stage, start + at::BASE_ADDRESS, &base.to_be_bytes()));
        lines.extend(write_number(random, stage, start + at::BASE_COUNT, &count.to_be_bytes()));
    }
    for (offset, code) in [
        (at::MEMORY_CODE, intent.memory_code),
        (at::DEVICE_CODE, intent.device_code),
        (at::BASE_CODE, intent.base_code),
    ] {
        if random.chance(700) {
            let code = with_loose_bits(random, code, 0xF8);
            lines.push(stage.write_byte(start + offset, code));
        }
    }
    if random.chance(400) {
        let priority = random.below(4) as u8;
        let priority = with_loose_bits(random, priority, 0xFC);
        lines.push(stage.write_byte(start + at::PRIORITY, priority));
    }
    if random.chance(250) {
        let vectors = [random.byte(), random.byte()];
        lines.push(stage.write_byte(start + at::NORMAL_VECTOR, vectors[0]));
        lines.push(stage.write_byte(start + at::ERROR_VECTOR, vectors[1]));
    }
    let mut control = 0x80;
    if continued || random.chance(12) {
        control |= 0x40;
    }
    if random.chance(40) {
        control |= 0x20;
    }
    if random.chance(8) {
        control |= 0x10;
    }
    if random.chance(500) {
        control |= 0x08;
    }
    lines.push(stage.write_byte(start + at::CONTROL, control));
    lines
}

/// A control byte that starts or continues, whether or not it may.
fn random_control(random: &mut Random, value: u8) -> u8 {
    if random.chance(500) {
        0x40 | value & 0x28
    } else {
        0x80 | value & 0x68
    }
}

struct Maker {
    random: Random,
    player: Player,
    out: Vec<u8>,
    left: usize,
    options: Options,
    /// How often, in a thousand, something breaks into an operation.
    wildness: u32,
    /// Answers in a row that brought nothing forward.
    stuck: u32,
    huge: bool,
    /// Tables written lately: linked or not, code, base address.
    tables: Vec<(bool, u8, u32)>,
}

impl Maker {
    /// Writes a line and plays it; after the last one, nothing.
    fn emit(&mut self, line: &str) -> String {
        if self.left == 0 {
            return String::new();
        }
        self.left -= 1;
        self.emit_free(line)
    }

    fn emit_free(&mut self, line: &str) -> String {
        let answer = self.player.answer(line.as_bytes());
        self.out.extend_from_slice(line.as_bytes());
        self.out.push(b'\n');
        answer
    }

    fn set_up(&mut self, calls: usize) {
        let random = &mut self.random;
        let flat = |random: &mut Random| {
            let length = random.pick(&[0x40, 0x60, 0x81, 0x100, 0x1FF, 0x400]) + random.below(4) as usize;
            show_bytes(random.bytes(length))
        };
        let memory = match random.below(10) {
            0..=3 => format!("mem flat {}", flat(random)),
            4..=6 => format!("mem split {} {}", flat(random), flat(random)),
            7 => format!("mem zero {:X}", random.between(0x20, 0x300)),
            _ if self.options.huge_memory => "mem zero 1000000".to_string(),
            _ => format!("mem zero {:X}", random.between(0x800, 0x1000)),
        };
        self.huge = memory.ends_with("1000000");
        let mut devices = Vec::new();
        for _ in 0..4 {
            let size = match random.below(10) {
                0 => random.below(4),
                1..=3 => random.between(5, 60),
                _ => random.between(40, 60 + (calls as u32).min(40_000) / 4),
            };
            devices.push(if random.chance(500) {
                let bytes = random.bytes(size as usize);
                format!("tape:{}", crate::text::show_bytes_or_dash(bytes))
            } else {
                format!("printer:{size}")
            });
        }
        let places = match random.below(20) {
            0 => 0,
            1..=9 => random.between(1, 6),
            10..=17 => random.between(7, 40),
            _ => random.between(100, 1000),
        };
        self.wildness = random.pick(&[2, 8, 15, 40]);
        self.emit_free(&memory);
        self.emit_free(&format!("bank {}", devices.join(" ")));
        self.emit_free(&format!("trace {places}"));
    }

    fn channel(&self, n: usize) -> &Channel {
        &self.player.controller.channels[n]
    }

    fn active(&self) -> Vec<usize> {
        (0..4).filter(|&n| self.channel(n).status.active).collect()
    }

    fn inside(&self) -> Option<usize> {
        (0..4).find(|&n| self.channel(n).is_inside())
    }

    fn wild(&mut self) -> bool {
        let wildness = self.wildness;
        self.random.chance(wildness)
    }

    fn main_loop(&mut self) {
        while self.left > 0 {
            let active = self.active();
            let idle_weight = match active.len() {
                0 => 900,
                1 => 60,
                2 => 30,
                3 => 15,
                _ => 2,
            };
            if self.random.chance(idle_weight) {
                self.start_some_channel();
            } else if self.stuck >= 3 {
                self.get_unstuck();
            } else {
                self.background();
            }
        }
    }

    fn start_some_channel(&mut self) {
        let inactive: Vec<usize> = (0..4).filter(|&n| !self.channel(n).status.active).collect();
        let channel = if inactive.is_empty() || self.random.chance(15) {
            self.random.below(4) as usize
        } else {
            self.random.pick(&inactive)
        };
        let lines = if self.random.chance(if self.tables.len() > 4 { 600 } else { 350 }) {
            self.restart(channel)
        } else {
            draw_start(&mut self.random, &self.player, channel)
        };
        let quiet = self.random.chance(500);
        for line in lines {
            self.emit(&line);
            if !quiet && self.random.chance(120) {
                self.background();
            }
        }
        let c = self.channel(channel);
        if c.must_fetch() && !c.is_inside() {
            let table = (c.operation.chain == Chain::Linked, c.base_code, c.base_address);
            if !self.tables.contains(&table) {
                self.tables.push(table);
            }
            if self.tables.len() > 12 {
                self.tables.remove(0);
            }
        }
        self.stuck = 0;
    }

    /// Starts a channel again over the settings it has.
    fn restart(&mut self, channel: usize) -> Vec<String> {
        let start = 64 * channel as u32;
        let c = self.channel(channel).clone();
        let mut lines = vec![format!("wb {:02X} F0", start + at::STATUS)];
        let count = draw_count(&mut self.random);
        if c.operation.chain.is_chained() {
            let linked = c.operation.chain == Chain::Linked;
            let known: Vec<_> = self.tables.iter().copied().filter(|table| table.0 == linked).collect();
            if !known.is_empty() && self.random.chance(950) {
                let (_, code, base) = self.random.pick(&known);
                lines.push(format!("ww {:02X} {:04X}", start + at::BASE_ADDRESS, base >> 16));
                lines.push(format!("ww {:02X} {:04X}", start + at::BASE_ADDRESS + 2, base % (1 << 16)));
                lines.push(format!("wb {:02X} {:02X}", start + at::BASE_CODE, code));
            }
            if !linked {
                lines.push(format!("ww {:02X} {:04X}", start + at::BASE_COUNT, self.random.between(1, 3)));
            }
        } else {
            lines.push(format!("ww {:02X} {:04X}", start + at::TRANSFER_COUNT, count));
            if self.random.chance(400) {
                let length = self.player.length(c.memory_code);
                let address = draw_address(&mut self.random, length, true);
                lines.push(format!("ww {:02X} {:04X}", start + at::MEMORY_ADDRESS, address >> 16));
                lines.push(format!("ww {:02X} {:04X}", start + at::MEMORY_ADDRESS + 2, address % (1 << 16)));
            }
        }
        let continued = !c.operation.chain.is_chained() && self.random.chance(300);
        let control = if continued { 0xC0 } else { 0x80 } | if self.random.chance(500) { 0x08 } else { 0 };
        lines.push(format!("wb {:02X} {:02X}", start + at::CONTROL, control));
        lines
    }

    /// Something that goes on beside the starts.
    fn background(&mut self) {
        if self.wild() {
            return self.disturb();
        }
        match self.random.below(1000) {
            0..=529 => {
                for _ in 0..self.random.between(1, 8) {
                    if self.stuck < 2 {
                        self.step();
                    }
                }
            }
            530..=609 => self.run(),
            610..=699 => self.move_line(),
            700..=719 => self.store_somewhere(),
            720..=744 => self.store_near(),
            745..=769 => self.read_register(),
            770..=889 => {
                let channel = self.random.below(4);
                self.emit(&format!("regs {channel}"));
            }
            890..=899 => self.question(),
            900..=924 => self.continue_later(),
            925..=944 => self.toggle_halt(),
            945..=959 => self.empty(),
            960..=994 => self.receipts(),
            _ => self.bad_line(),
        }
    }

    fn step(&mut self) {
        let exceptional = self.random.chance(60 + 4 * self.wildness);
        let code = if !exceptional {
            7
        } else {
            match self.random.below(100) {
                0..=39 => 6,
                40..=67 => 4,
                68..=86 => 3,
                87..=93 => 5,
                94 => 0,
                95..=96 => 7,
                _ => self.random.pick(&[1, 2, 8, 9, 15]),
            }
        };
        let done = self.random.chance(70) as u8;
        let answer = self.emit(&format!("step {code} {done}"));
        self.note(&answer);
    }

    fn note(&mut self, answer: &str) {
        if answer == "reset" && self.random.chance(600) {
            return self.start_afresh();
        }
        if answer.starts_with("waiting") || answer.starts_with("idle") {
            self.stuck += 1;
        } else {
            self.stuck = 0;
        }
    }

    /// After a reset some channels are started before any step, so that the
    /// choice among them begins anew.
    fn start_afresh(&mut self) {
        self.stuck = 0;
        let first = self.random.below(4);
        for turn in 0..self.random.between(2, 4) {
            let start = 64 * ((first + turn) % 4);
            let count = self.random.between(1, 3);
            self.emit(&format!("wb {:02X} 01", start + at::OPERATION));
            self.emit(&format!("ww {:02X} {:04X}", start + at::TRANSFER_COUNT, count));
            self.emit(&format!("wb {:02X} 80", start + at::CONTROL));
        }
        for _ in 0..3 {
            self.emit("step 7 0");
        }
    }

    fn run(&mut self) {
        let full = self.player.world.as_ref().is_some_and(|world| world.trace.is_full());
        if full && self.random.chance(700) {
            return self.empty();
        }
        let steps = match self.random.below(20) {
            0..=1 => 0,
            2..=5 => 1,
            6..=13 => self.random.between(2, 6),
            14..=18 => self.random.between(5, 40),
            _ => 65_535,
        };
        let answer = self.emit(&format!("run {steps}"));
        self.note(&answer);
    }

    fn move_line(&mut self) {
        if self.random.chance(15) {
            let channel = self.random.pick(&[4, 5, 7, 9, 100, 255]);
            let level = self.random.below(2);
            self.emit(&format!("req {channel} {level}"));
            return;
        }
        let by_line: Vec<usize> =
            self.active().into_iter().filter(|&n| !self.channel(n).operation.requests.always_automatic()).collect();
        let channel = if by_line.is_empty() || self.random.chance(150) {
            self.random.below(4) as usize
        } else {
            self.random.pick(&by_line)
        };
        let level = if self.random.chance(800) { !self.channel(channel).line } else { self.random.chance(600) };
        self.emit(&format!("req {} {}", channel, level as u8));
        if self.random.chance(700) {
            self.stuck = 0;
        }
    }

    fn store(&mut self, code: u32, address: u32) {
        let value = self.random.byte();
        self.emit(&format!("store {} {:06X} {:02X}", code, address % (1 << 24), value));
    }

    fn store_somewhere(&mut self) {
        let code = if self.random.chance(30) { self.random.pick(&[8, 9, 12]) } else { self.random.below(8) };
        let length = self.player.length(code as u8);
        let address = draw_address(&mut self.random, length, false);
        self.store(code, address);
    }

    /// Stores into what a channel is just moving or fetching.
    fn store_near(&mut self) {
        let Some(channel) = self.inside() else {
            return self.store_somewhere();
        };
        let memory_side = self.random.chance(500);
        let c = self.channel(channel);
        let (code, address) = match c.phase {
            Phase::Entry { .. } => (c.base_code, c.base_address),
            _ if memory_side => (c.memory_code, c.memory_address),
            _ => (c.device_code, c.device_address),
        };
        let offset = self.random.below(5);
        self.store(code as u32, address.wrapping_add(offset));
    }

    fn read_register(&mut self) {
        let offset = self.random.byte();
        let known = self.random.chance(500);
        let within = self.random.pick(&[0x00, 0x01, 0x04, 0x05, 0x06, 0x07, 0x0A, 0x0C, 0x16, 0x1A, 0x1E, 0x28, 0x2D]);
        let offset = if known { offset / 64 * 64 + within } else { offset };
        let letter = if self.random.chance(500) { 'b' } else { 'w' };
        self.emit(&format!("r{letter} {offset:02X}"));
    }

    fn question(&mut self) {
        match self.random.below(10) {
            0..=1 => {
                self.emit("gcr");
            }
            2..=4 => {
                let channel = self.random.below(4);
                self.emit(&format!("dev? {channel}"));
            }
            5 if !self.huge => {
                self.emit("mem? 0");
            }
            _ => self.peek(),
        }
    }

    fn peek(&mut self) {
        let code = self.random.below(8) as u8;
        let length = self.player.length(code);
        let count = self.random.between(1, 32).min(length);
        let address = if self.random.chance(300) { length - count } else { self.random.below(length - count + 1) };
        self.emit(&format!("peek {code} {address:06X} {count:X}"));
    }

    fn continue_later(&mut self) {
        let active = self.active();
        if active.is_empty() {
            return self.step();
        }
        let channel = self.random.pick(&active);
        let c = self.channel(channel);
        let chained = c.operation.chain.is_chained();
        if (chained || c.status.block) && !self.wild() && !self.random.chance(60) {
            return self.step();
        }
        let control = 0x40 | self.channel(channel).control_byte() & 0x28;
        self.emit(&format!("wb {:02X} {:02X}", 64 * channel as u32 + at::CONTROL, control));
    }

    fn toggle_halt(&mut self) {
        let active = self.active();
        if active.is_empty() {
            return self.step();
        }
        let channel = self.random.pick(&active);
        let halt = self.random.chance(400);
        let interrupt = self.channel(channel).interrupt;
        let control = if halt { 0x20 } else { 0 } | if interrupt { 0x08 } else { 0 };
        self.emit(&format!("wb {:02X} {:02X}", 64 * channel as u32 + at::CONTROL, control));
    }

    fn empty(&mut self) {
        let held = self.player.world.as_ref().map_or(0, |world| world.trace.len()) as u32;
        let count = match self.random.below(10) {
            0 => 0,
            1..=2 => held + self.random.below(3),
            3..=5 => held,
            _ => self.random.below(held + 1),
        };
        // A moving of nothing is kept rare: it says little.
        if held == 0 && !self.random.chance(100) {
            return self.step();
        }
        self.emit(&format!("empty {count}"));
    }

    fn receipts(&mut self) {
        if !self.options.receipts {
            return self.step();
        }
        let raises = (0..4).any(|n| self.channel(n).raises_interrupt());
        let free: Vec<usize> = (0..8).filter(|&s| self.player.slots[s].is_none()).collect();
        let used: Vec<usize> = (0..8).filter(|&s| self.player.slots[s].is_some()).collect();
        let take = !free.is_empty() && (raises && self.random.chance(550) || self.random.chance(60));
        if take {
            let slot = self.random.pick(&free);
            self.emit(&format!("take {slot}"));
        } else if !used.is_empty() {
            let slot = self.random.pick(&used);
            self.emit(&format!("close {slot}"));
        } else {
            self.step();
        }
    }

    fn bad_line(&mut self) {
        if !self.options.bad_lines {
            return self.step();
        }
        if self.random.chance(50) {
            let long = "F0".repeat(self.random.between(1000, 5000) as usize);
            self.emit(&format!("wb 00 {long}"));
            return;
        }
        let line = self.random.pick(&[
            "",
            " ",
            "hello",
            "rb",
            "rb 0",
            "rb 0a",
            "rb GG",
            "RB 00",
            "rb  00",
            "rb 00 ",
            " rb 00",
            "wb 00",
            "wb 00 000",
            "ww 00 00",
            "step 7",
            "step 7 2",
            "step 7 0 0",
            "step seven 0",
            "req 0",
            "req 0 2",
            "req 00 1",
            "run",
            "run 05",
            "run -1",
            "store 0 00 00",
            "store 0 0000000 00",
            "take",
            "close x",
            "peek 0 000000",
            "= ok",
        ]);
        self.emit(line);
    }

    /// Something that breaks into what is going on.
    fn disturb(&mut self) {
        let active = self.active();
        let channel = if active.is_empty() || self.random.chance(200) {
            self.random.below(4) as usize
        } else {
            self.random.pick(&active)
        };
        let start = 64 * channel as u32;
        let value = self.random.byte();
        match self.random.below(12) {
            0 => {
                self.emit(&format!("wb {:02X} 10", start + at::CONTROL));
            }
            1 => {
                let control = random_control(&mut self.random, value);
                self.emit(&format!("wb {:02X} {:02X}", start + at::CONTROL, control));
            }
            2..=4 => {
                let within = self.random.pick(&[
                    0x04, 0x05, 0x06, 0x0A, 0x0B, 0x0C, 0x0F, 0x14, 0x17, 0x1A, 0x1B, 0x1C, 0x1F, 0x29, 0x31, 0x39,
                ]);
                self.emit(&format!("wb {:02X} {:02X}", start + within, value));
            }
            5..=7 => {
                let within = self.random.pick(&[
                    0x00, 0x04, 0x06, 0x06, 0x0A, 0x0C, 0x0E, 0x14, 0x16, 0x1A, 0x1C, 0x1E, 0x28, 0x30, 0x38, 0x24, 0x2C,
                ]);
                let low = self.random.byte();
                self.emit(&format!("ww {:02X} {:02X}{:02X}", start + within, value, low));
            }
            8 => {
                let offset = self.random.byte();
                self.emit(&format!("wb {offset:02X} {value:02X}"));
            }
            9 => {
                let offset = self.random.byte();
                let low = self.random.byte();
                self.emit(&format!("ww {offset:02X} {value:02X}{low:02X}"));
            }
            10 => {
                let line = self.random.pick(&["wb FF 05", "ww FE 123A", "wb FF F3"]);
                self.emit(line);
            }
            _ => {
                let line = if self.random.chance(250) { "step 0 0" } else { "step 5 0" };
                let answer = self.emit(line);
                self.note(&answer);
            }
        }
    }

    /// Helps on channels that wait for a device, a line or their halt.
    fn get_unstuck(&mut self) {
        self.stuck = 0;
        let active = self.active();
        if active.is_empty() {
            return self.start_some_channel();
        }
        if self.random.chance(200) {
            return self.background();
        }
        let channel = match self.inside() {
            Some(channel) => channel,
            None => self.random.pick(&active),
        };
        let c = self.channel(channel);
        let control = 64 * channel as u32 + at::CONTROL;
        if c.halt && !c.is_inside() {
            let keep = if c.interrupt { 0x08 } else { 0 };
            self.emit(&format!("wb {control:02X} {keep:02X}"));
        } else if !c.is_inside() && !c.must_fetch() && !c.has_request() {
            if c.line {
                self.emit(&format!("req {channel} 0"));
            }
            self.emit(&format!("req {channel} 1"));
            self.step();
        } else {
            // A device that will never be ready: give the operation up.
            let answer = self.emit("step 7 0");
            if answer == "waiting" {
                self.emit(&format!("wb {control:02X} 10"));
            }
        }
    }

    fn last_questions(&mut self) {
        for channel in 0..4 {
            self.emit_free(&format!("regs {channel}"));
        }
        self.emit_free("gcr");
        if self.huge {
            self.emit_free("peek 0 000000 400");
            self.emit_free("peek 7 FFFC00 400");
        } else {
            self.emit_free("mem? 0");
            if self.player.world.as_ref().is_some_and(|world| world.memory.whole(1).is_some()) {
                self.emit_free("mem? 1");
            }
        }
        for channel in 0..4 {
            self.emit_free(&format!("dev? {channel}"));
        }
    }
}

/// A random sequence with so many calls between set-up and last questions.
pub fn make_sequence(seed: u64, calls: usize, options: Options) -> Vec<u8> {
    let mut maker = Maker {
        random: Random::new(seed),
        player: Player::new(),
        out: Vec::new(),
        left: calls,
        options,
        wildness: 30,
        stuck: 0,
        huge: false,
        tables: Vec::new(),
    };
    maker.set_up(calls);
    maker.main_loop();
    maker.last_questions();
    maker.out
}

/// A random board script of so many lines.
pub fn make_script(seed: u64, lines: usize, options: Options) -> String {
    let mut random = Random::new(seed);
    let mut board = Board::new();
    let mut out: Vec<String> = Vec::new();
    while out.len() < lines {
        let active = (0..4).filter(|&n| board.controller.channels[n].status.active).count();
        let begin = random.chance(if active == 0 { 600 } else { 80 });
        let new_lines = if begin {
            let channel = random.below(4) as usize;
            draw_start(&mut random, &board, channel)
        } else {
            vec![script_line(&mut random, options)]
        };
        for line in new_lines {
            board.line(line.as_bytes());
            out.push(line);
            if random.chance(150) {
                let line = script_line(&mut random, options);
                board.line(line.as_bytes());
                out.push(line);
            }
        }
    }
    out.truncate(lines);
    let mut text = out.join("\n");
    text.push('\n');
    text
}

fn script_line(random: &mut Random, options: Options) -> String {
    match random.below(100) {
        0..=39 => match random.below(10) {
            0 => "S 00".to_string(),
            1 => "S FF".to_string(),
            _ => format!("S {:02X}", random.between(1, 12)),
        },
        40..=59 => {
            let channel = random.below(4);
            let within = random.pick(&[0, 0, 1, 1, 4, 5, 7, 0x0A, 0x0B, 0x0F, 0x17, 0x1B, 0x1F, 0x25, 0x02, 0x3F]);
            format!("R {:02X}", 64 * channel + within)
        }
        60..=67 => {
            let address = draw_address(random, 0x1000, false) % (1 << 24);
            let count = random.between(1, 16) as usize;
            format!("F {:06X} {}", address, show_bytes(random.bytes(count)))
        }
        68..=79 => {
            let address = if random.chance(900) { random.below(0x60) } else { random.between(0xFF0, 0x1002) };
            format!("M {:06X} {:02X}", address, random.between(0, 0x40))
        }
        80..=84 => {
            let channel = random.below(4);
            let control = random.pick(&[0x00, 0x08, 0x10, 0x20, 0x28, 0x40, 0x80, 0x88]);
            format!("W {:02X} {:02X}", 64 * channel + at::CONTROL, control)
        }
        85..=87 => format!("W {:02X} {:02X}", random.byte(), random.byte()),
        88..=94 if options.receipts => "I".to_string(),
        95..=96 if options.bad_lines => {
            let long = "0".repeat(LINE_LIMIT);
            let bad = ["", "X", "W 04", "W 04  08", "R 0a", "S 5", "I ", "F 000000 ", "M 0000 01", "R 00\r", &long];
            random.pick(&bad).to_string()
        }
        _ => "S 04".to_string(),
    }
}
