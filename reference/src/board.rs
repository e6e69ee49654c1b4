//! Running a board script.

use crate::controller::*;
use crate::cover::Cover;
use crate::play::{show_end, show_kind};
use crate::step::Record;
use crate::text::*;
use crate::world::*;

pub const SCRIPT_LIMIT: usize = 16_384;
pub const LINE_LIMIT: usize = 48;
const MEMORY_BYTES: usize = 4_096;
const TRACE_PLACES: usize = 128;

/// One line of a script.
#[derive(Clone, Debug, PartialEq, Eq)]
pub enum Command<'a> {
    Write { offset: u8, value: u8 },
    Read { offset: u8 },
    Fill { address: u32, data: &'a [u8] },
    Show { address: u32, count: usize },
    Steps { count: u32 },
    Interrupt,
}

/// The command a line stands for. The data of a fill stays text of the line.
pub fn parse_command(line: &[u8]) -> Option<Command<'_>> {
    if line.len() > LINE_LIMIT {
        return None;
    }
    Some(match fields(line).as_slice() {
        [b"W", o, v] => Command::Write { offset: hex(o, 2)? as u8, value: hex(v, 2)? as u8 },
        [b"R", o] => Command::Read { offset: hex(o, 2)? as u8 },
        [b"F", a, data] => {
            let bytes = hex_bytes(data).filter(|_| *data != b"-")?;
            if bytes.len() > 16 {
                return None;
            }
            Command::Fill { address: hex(a, 6)?, data }
        }
        [b"M", a, n] => Command::Show { address: hex(a, 6)?, count: hex(n, 2)? as usize },
        [b"S", n] => Command::Steps { count: hex(n, 2)? },
        [b"I"] => Command::Interrupt,
        _ => return None,
    })
}

/// The board: 4,096 bytes of memory, and devices that are never ready.
pub struct Board {
    pub controller: Controller,
    memory: Memory,
    bank: Bank,
}

impl Default for Board {
    fn default() -> Self {
        Board::new()
    }
}

impl Board {
    pub fn new() -> Self {
        Board { controller: Controller::new(), memory: Memory::Flat(vec![0; MEMORY_BYTES]), bank: Bank::default() }
    }

    /// What one line prints, without the newline at the end.
    pub fn line(&mut self, line: &[u8]) -> String {
        let Some(command) = parse_command(line) else {
            return show_refusal(NO_COMMAND);
        };
        match self.command(command) {
            Ok(text) => text,
            Err(refusal) => show_refusal(refusal),
        }
    }

    fn command(&mut self, command: Command) -> Result<String, Refusal> {
        match command {
            Command::Write { offset, value } => {
                self.controller.write_byte(offset, value)?;
                Ok("OK".to_string())
            }
            Command::Read { offset } => Ok(format!("{:02X}", self.controller.read_byte(offset)?)),
            Command::Fill { address, data } => {
                let bytes = hex_bytes(data).unwrap_or_default();
                if address as usize + bytes.len() > MEMORY_BYTES {
                    return Err(PAST_MEMORY);
                }
                for (i, byte) in bytes.into_iter().enumerate() {
                    self.memory.write(0, address + i as u32, byte);
                }
                Ok("OK".to_string())
            }
            Command::Show { address, count } => {
                if address as usize + count > MEMORY_BYTES {
                    return Err(PAST_MEMORY);
                }
                Ok(show_bytes((0..count as u32).filter_map(|i| self.memory.read(0, address + i))))
            }
            Command::Steps { count } => {
                let mut trace = Trace::new(TRACE_PLACES);
                let (end, recorded) = self.controller.run(&mut self.memory, &mut self.bank, &mut trace, count)?;
                let mut records = Vec::new();
                trace.move_oldest(recorded, &mut records, TRACE_PLACES);
                let mut text = String::new();
                for record in &records {
                    text.push_str(&show_record(record));
                    text.push('\n');
                }
                text.push_str(show_end(end));
                Ok(text)
            }
            Command::Interrupt => {
                let receipt = self.controller.take_interrupt()?;
                self.controller.close_interrupt(receipt);
                Ok(format!("{} {:02X}", receipt.channel, receipt.vector))
            }
        }
    }
}

fn show_refusal(refusal: Refusal) -> String {
    format!("E {:02}", refusal.0)
}

fn show_record(record: &Record) -> String {
    match record {
        Record::Cycle(cycle) => format!(
            "{} {} {:06X} {}",
            cycle.channel,
            show_kind(cycle.kind),
            cycle.address,
            show_bytes(cycle.data.iter().copied())
        ),
        Record::Error { channel, code } => format!("{channel} F {code:02X}"),
    }
}

/// Runs a script; what lies past the limit is not read.
pub fn run_script(text: &[u8]) -> (String, Cover) {
    let text = &text[..text.len().min(SCRIPT_LIMIT)];
    let mut board = Board::new();
    let mut out = String::new();
    for line in lines(text) {
        out.push_str(&board.line(line));
        out.push('\n');
    }
    (out, board.controller.cover)
}

#[cfg(test)]
mod tests {
    use super::*;

    fn run(script: &str) -> String {
        run_script(script.as_bytes()).0
    }

    #[test]
    fn two_bytes_from_memory_to_memory() {
        let script = "F 000010 4142\nW 04 08\nW 05 01\nW 06 05\nW 0B 02\nW 0F 10\nW 17 20\nW 07 80\nS 05\nR 00\nM 000020 02\n";
        let expected = "OK\nOK\nOK\nOK\nOK\nOK\nOK\nOK\n0 R 000010 41\n0 W 000020 41\n0 R 000011 42\n0 W 000021 42\nidle\n80\n4142\n";
        assert_eq!(run(script), expected);
    }

    #[test]
    fn lines_that_are_no_commands() {
        assert_eq!(run("\nW 04  08\nw 04 08\nR 0a\nR 00\r\nS 5\nF 000010 \nF 000010 414\nI \n"), "E 06\n".repeat(9));
        let too_long = format!("F 000000 {}", "00".repeat(20));
        assert_eq!(run(&too_long), "E 06\n");
        let sixteen = format!("F 000000 {}", "00".repeat(16));
        assert_eq!(run(&sixteen), "OK\n");
        let seventeen = format!("F 000000 {}", "00".repeat(17));
        assert_eq!(run(&seventeen), "E 06\n");
        assert_eq!(run(""), "");
    }

    #[test]
    fn areas_and_refusals() {
        assert_eq!(run("M 001000 00\nM 001001 00\nM 000FFF 01\nM 000FFF 02"), "\nE 07\n00\nE 07\n");
        assert_eq!(run("F 000FFF 0102\nM 000FFF 01\nF FFFFFF 01\nI\nR 02\nW 02 00\nW 01 FF"), "E 07\n00\nE 07\nE 09\nE 01\nE 01\nOK\n");
        assert_eq!(run("S 00\nS 01"), "done\nidle\n");
    }

    #[test]
    fn a_script_is_cut_at_its_limit() {
        let mut script = "R 00\n".repeat(SCRIPT_LIMIT / 5);
        script.push_str("R 0000000");
        let out = run(&script);
        assert_eq!(SCRIPT_LIMIT % 5, 4);
        assert!(out.ends_with("00\n00\n"));
        assert_eq!(out.lines().count(), SCRIPT_LIMIT / 5 + 1);
    }

    #[test]
    fn interrupt_prints_channel_and_vector() {
        assert_eq!(run("W 67 51\nW 47 88\nR 41\nI\nR 40\nR 41\nI"), "OK\nOK\n0D\n1 51\n00\n00\nE 09\n");
    }
}
