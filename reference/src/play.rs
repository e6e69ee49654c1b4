//! Playing a recorded sequence of calls.

use crate::controller::*;
use crate::cover::{Cover, Rule};
use crate::law::{Law, Sight};
use crate::step::*;
use crate::text::*;
use crate::world::*;

/// The longest run.
pub const RUN_LIMIT: u32 = 65_535;

/// One line of a sequence after the set-up.
#[derive(Clone, Debug, PartialEq, Eq)]
pub enum Call {
    ReadByte(u8),
    ReadWord(u8),
    WriteByte(u8, u8),
    WriteWord(u8, u16),
    Line(u32, bool),
    Store(u32, u32, u8),
    Step(u32, bool),
    Run(u32),
    Take(usize),
    Close(usize),
    Empty(usize),
    Registers(usize),
    General,
    Peek(u8, u32, u32),
    WholeMemory(u32),
    Device(usize),
}

fn below(number: u32, limit: u32) -> Option<usize> {
    if number < limit {
        Some(number as usize)
    } else {
        None
    }
}

pub fn parse_call(line: &[u8]) -> Option<Call> {
    let fields = fields(line);
    Some(match fields.as_slice() {
        [b"rb", o] => Call::ReadByte(hex(o, 2)? as u8),
        [b"rw", o] => Call::ReadWord(hex(o, 2)? as u8),
        [b"wb", o, v] => Call::WriteByte(hex(o, 2)? as u8, hex(v, 2)? as u8),
        [b"ww", o, v] => Call::WriteWord(hex(o, 2)? as u8, hex(v, 4)? as u16),
        [b"req", c, l] => Call::Line(decimal(c)?, bit(l)?),
        [b"store", f, a, v] => Call::Store(decimal(f)?, hex(a, 6)?, hex(v, 2)? as u8),
        [b"step", code, done] => Call::Step(decimal(code)?, bit(done)?),
        [b"run", n] => Call::Run(decimal(n).filter(|&n| n <= RUN_LIMIT)?),
        [b"take", s] => Call::Take(below(decimal(s)?, 8)?),
        [b"close", s] => Call::Close(below(decimal(s)?, 8)?),
        [b"empty", n] => Call::Empty(decimal(n)? as usize),
        [b"regs", c] => Call::Registers(below(decimal(c)?, 4)?),
        [b"gcr"] => Call::General,
        [b"peek", f, a, n] => {
            let count = hex_free(n).filter(|&n| n as usize <= ADDRESSES)?;
            Call::Peek(below(decimal(f)?, 8)? as u8, hex(a, 6)?, count)
        }
        [b"mem?", s] => Call::WholeMemory(decimal(s)?),
        [b"dev?", c] => Call::Device(below(decimal(c)?, 4)?),
        _ => return None,
    })
}

fn parse_memory(line: &[u8]) -> Option<Memory> {
    let fits = |bytes: Vec<u8>| if bytes.len() <= ADDRESSES { Some(Memory::Flat(bytes)) } else { None };
    match fields(line).as_slice() {
        [b"mem", b"zero", n] => {
            let length = hex_free(n)? as usize;
            if length > ADDRESSES {
                return None;
            }
            Some(Memory::Flat(vec![0; length]))
        }
        [b"mem", b"flat", bytes] => fits(hex_bytes(bytes)?),
        [b"mem", b"split", upper, lower] => {
            Some(Memory::split(fits(hex_bytes(upper)?)?, fits(hex_bytes(lower)?)?))
        }
        _ => None,
    }
}

fn parse_device(field: &[u8]) -> Option<Device> {
    if let Some(bytes) = field.strip_prefix(b"tape:") {
        return Some(Device::tape(&hex_bytes(bytes)?));
    }
    let places = field.strip_prefix(b"printer:")?;
    Some(Device::printer(decimal(places)? as usize))
}

fn parse_bank(line: &[u8]) -> Option<Bank> {
    match fields(line).as_slice() {
        [b"bank", a, b, c, d] => {
            let devices = [parse_device(a)?, parse_device(b)?, parse_device(c)?, parse_device(d)?];
            Some(Bank { devices })
        }
        _ => None,
    }
}

fn parse_trace(line: &[u8]) -> Option<Trace<Record>> {
    match fields(line).as_slice() {
        [b"trace", n] => Some(Trace::new(decimal(n)? as usize)),
        _ => None,
    }
}

pub fn show_cycle(cycle: &CycleRecord) -> String {
    let kind = show_kind(cycle.kind);
    let data = show_bytes(cycle.data.iter().copied());
    format!("cycle {} {} {} {:06X} {}", cycle.channel, kind, cycle.code, cycle.address, data)
}

pub fn show_kind(kind: CycleKind) -> char {
    match kind {
        CycleKind::Read => 'R',
        CycleKind::Write => 'W',
        CycleKind::EntryWord => 'B',
    }
}

fn show_error(channel: usize, code: u8) -> String {
    format!("error {channel} {code:02X}")
}

fn show_record(record: &Record) -> String {
    match record {
        Record::Cycle(cycle) => show_cycle(cycle),
        Record::Error { channel, code } => show_error(*channel, *code),
    }
}

fn show_answer(answer: &Answer) -> String {
    match answer {
        Answer::Reset => "reset".to_string(),
        Answer::Idle => "idle".to_string(),
        Answer::Halted => "halted".to_string(),
        Answer::Retry => "retry".to_string(),
        Answer::Waiting => "waiting".to_string(),
        Answer::Error { channel, code } => show_error(*channel, *code),
        Answer::Cycle(cycle) => show_cycle(cycle),
    }
}

pub fn show_end(end: RunEnd) -> &'static str {
    match end {
        RunEnd::Done => "done",
        RunEnd::Idle => "idle",
        RunEnd::Waiting => "waiting",
        RunEnd::Full => "full",
    }
}

fn show_registers(c: &Channel) -> String {
    format!(
        "{:02X} {:02X} {:02X} {:02X} {:02X} {:02X} {:04X} {:04X} {:08X} {:08X} {:08X} {:02X} {:02X} {:02X} {:02X} {:02X} {:02X}",
        c.status.to_byte(),
        c.error_code,
        c.device.to_byte(),
        c.operation.to_byte(),
        c.sequence.to_byte(),
        c.control_byte(),
        c.transfer_count,
        c.base_count,
        c.memory_address,
        c.device_address,
        c.base_address,
        c.normal_vector,
        c.error_vector,
        c.memory_code,
        c.device_code,
        c.base_code,
        c.priority
    )
}

/// The world once the set-up is read.
#[derive(Clone, Debug)]
pub struct World {
    pub memory: Memory,
    pub bank: Bank,
    pub trace: Trace<Record>,
}

/// Plays the lines of one sequence.
pub struct Player {
    pub controller: Controller,
    memory: Option<Memory>,
    bank: Option<Bank>,
    pub world: Option<World>,
    pub slots: [Option<Receipt>; 8],
    law: Option<Law>,
}

impl Default for Player {
    fn default() -> Self {
        Player::new()
    }
}

fn show(result: Result<String, Refusal>) -> String {
    match result {
        Ok(text) => text,
        Err(Refusal(number)) => format!("refused {number}"),
    }
}

impl Player {
    pub fn new() -> Self {
        Player { controller: Controller::new(), memory: None, bank: None, world: None, slots: [None; 8], law: None }
    }

    /// A player that also keeps the books of the operand law.
    pub fn with_law() -> Self {
        Player { law: Some(Law::new()), ..Player::new() }
    }

    pub fn law(&self) -> Option<&Law> {
        self.law.as_ref()
    }

    /// The answer to one line.
    pub fn answer(&mut self, line: &[u8]) -> String {
        let answer = if self.world.is_none() { self.set_up(line) } else { self.call(line) };
        answer.unwrap_or_else(|| {
            self.controller.cover.hit(Rule::BadLine);
            "bad line".to_string()
        })
    }

    /// The set-up comes once, in its order: memory, bank, trace.
    fn set_up(&mut self, line: &[u8]) -> Option<String> {
        if self.memory.is_none() {
            self.memory = Some(parse_memory(line)?);
        } else if self.bank.is_none() {
            self.bank = Some(parse_bank(line)?);
        } else {
            let trace = parse_trace(line)?;
            let (memory, bank) = (self.memory.take()?, self.bank.take()?);
            if let Some(law) = &mut self.law {
                law.set_up(&memory, &bank);
            }
            self.world = Some(World { memory, bank, trace });
        }
        Some("ok".to_string())
    }

    fn call(&mut self, line: &[u8]) -> Option<String> {
        let call = parse_call(line)?;
        let before = self.law.as_ref().map(|_| self.controller.channels.clone());
        let (answer, step) = self.make_call(&call)?;
        if let (Some(law), Some(before), Some(world)) = (&mut self.law, before, &self.world) {
            let accepted = !answer.starts_with("refused");
            let after = &self.controller.channels;
            let seen = Sight { before: &before, after, memory: &world.memory, bank: &world.bank };
            law.after_call(&call, accepted, step.as_ref(), &seen);
        }
        Some(answer)
    }

    fn make_call(&mut self, call: &Call) -> Option<(String, Option<Answer>)> {
        let world = self.world.as_mut()?;
        let controller = &mut self.controller;
        let ok = |_| "ok".to_string();
        let mut step_answer = None;
        let text = match call {
            Call::ReadByte(o) => show(controller.read_byte(*o).map(|v| format!("{v:02X}"))),
            Call::ReadWord(o) => show(controller.read_word(*o).map(|v| format!("{v:04X}"))),
            Call::WriteByte(o, v) => show(controller.write_byte(*o, *v).map(ok)),
            Call::WriteWord(o, v) => show(controller.write_word(*o, *v).map(ok)),
            Call::Line(c, level) => show(controller.set_line(*c, *level).map(ok)),
            Call::Store(f, a, v) => show(controller.store(&mut world.memory, *f, *a, *v).map(ok)),
            Call::Step(code, done) => match controller.step(&mut world.memory, &mut world.bank, *code, *done) {
                Ok(answer) => {
                    let text = show_answer(&answer);
                    step_answer = Some(answer);
                    text
                }
                Err(refusal) => show(Err(refusal)),
            },
            Call::Run(n) => show(self.run(*n).map(|(end, count)| format!("{} {}", show_end(end), count))),
            Call::Take(slot) => {
                if self.slots[*slot].is_some() {
                    return None;
                }
                let others_open = self.slots.iter().flatten().count() > 0;
                show(controller.take_interrupt().map(|receipt| {
                    if others_open {
                        controller.cover.hit(Rule::TakenAgain);
                    }
                    self.slots[*slot] = Some(receipt);
                    format!("{} {:02X} {:02X}", receipt.channel, receipt.vector, receipt.seen)
                }))
            }
            Call::Close(slot) => {
                let receipt = self.slots[*slot].take()?;
                controller.close_interrupt(receipt);
                "ok".to_string()
            }
            Call::Empty(n) => {
                let mut moved = Vec::new();
                let count = world.trace.move_oldest(*n, &mut moved, *n);
                controller.cover.hit(if count == 0 {
                    Rule::EmptiedNone
                } else if count < *n {
                    Rule::EmptiedShort
                } else {
                    Rule::EmptiedSome
                });
                let records: Vec<String> = moved.iter().map(show_record).collect();
                format!("moved {}: {}", count, records.join("; ")).trim_end().to_string()
            }
            Call::Registers(c) => show_registers(&controller.channels[*c]),
            Call::General => format!("{:02X}", controller.general),
            Call::Peek(f, a, n) => {
                let mut text = String::new();
                for i in 0..*n {
                    match world.memory.read(*f, *a + i) {
                        Some(byte) => text.push_str(&show_bytes([byte])),
                        None => text.push_str("--"),
                    }
                }
                text
            }
            Call::WholeMemory(s) => show_bytes(world.memory.whole(*s)?.iter().copied()),
            Call::Device(c) => {
                let device = &world.bank.devices[*c];
                format!(
                    "{} / {} / {}",
                    show_bytes_or_dash(device.waiting.iter().copied()),
                    show_bytes_or_dash(device.kept.iter().copied()),
                    device.free
                )
            }
        };
        Some((text, step_answer))
    }

    /// A run; with the law each of its steps is entered into the books.
    fn run(&mut self, steps: u32) -> Result<(RunEnd, usize), Refusal> {
        let Some(World { memory, bank, trace }) = &mut self.world else {
            return Err(FULL_TRACE);
        };
        match &mut self.law {
            None => self.controller.run(memory, bank, trace, steps),
            Some(law) => self.controller.run_with(memory, bank, trace, steps, |controller, memory, bank| {
                let before = controller.channels.clone();
                let answer = controller.step(memory, bank, 7, false)?;
                law.after_step_of_run(&answer, &Sight { before: &before, after: &controller.channels, memory, bank });
                Ok(answer)
            }),
        }
    }

    /// Receipts still open at the end are closed.
    pub fn finish(&mut self) {
        for slot in 0..self.slots.len() {
            if self.slots[slot].is_some() {
                self.answer(format!("close {slot}").as_bytes());
            }
        }
        if let (Some(law), Some(world)) = (&mut self.law, &self.world) {
            let channels = &self.controller.channels;
            law.at_the_end(&Sight { before: channels, after: channels, memory: &world.memory, bank: &world.bank });
        }
    }
}

/// Plays a whole sequence and gives how often each rule was used.
pub fn cover(text: &[u8]) -> Cover {
    let mut player = Player::new();
    for line in lines(text) {
        player.answer(line);
    }
    player.finish();
    player.controller.cover
}

/// Plays a whole sequence with the books of the operand law.
pub fn check_law(text: &[u8]) -> Law {
    let mut player = Player::with_law();
    for line in lines(text) {
        player.answer(line);
    }
    player.finish();
    player.law.unwrap_or_default()
}

/// Plays a whole sequence and gives each line with its answer.
pub fn play(text: &[u8]) -> Vec<u8> {
    let mut player = Player::new();
    let mut out = Vec::new();
    for line in lines(text) {
        let answer = player.answer(line);
        out.extend_from_slice(line);
        out.extend_from_slice(b" = ");
        out.extend_from_slice(answer.as_bytes());
        out.push(b'\n');
    }
    player.finish();
    out
}
