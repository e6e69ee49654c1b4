use std::io::{Read, Write};
use std::process::ExitCode;

use reference::law::LawRule;
use reference::make::{make_script, make_sequence, Options};
use reference::{board, play};

const USAGE: &str = "reference play < sequence        each line with its answer
reference board < script         what the board prints
reference cover < sequence       how often each rule was used
reference check-law < sequence   the operand law, checked after every call
reference make SEED CALLS [--no-receipts] [--no-bad-lines] [--no-huge-memory]
reference make-script SEED LINES [--no-receipts] [--no-bad-lines]";

fn input() -> std::io::Result<Vec<u8>> {
    let mut text = Vec::new();
    std::io::stdin().lock().read_to_end(&mut text)?;
    Ok(text)
}

fn print(bytes: &[u8]) -> std::io::Result<()> {
    let mut out = std::io::stdout().lock();
    out.write_all(bytes)?;
    out.flush()
}

/// Seed, count and options of something to make.
fn parse_make(words: &[&str]) -> Option<(u64, usize, Options)> {
    let [seed, count, rest @ ..] = words else {
        return None;
    };
    let mut options = Options { receipts: true, bad_lines: true, huge_memory: true };
    for word in rest {
        match *word {
            "--no-receipts" => options.receipts = false,
            "--no-bad-lines" => options.bad_lines = false,
            "--no-huge-memory" => options.huge_memory = false,
            _ => return None,
        }
    }
    Some((seed.parse().ok()?, count.parse().ok()?, options))
}

fn run(words: &[&str]) -> std::io::Result<bool> {
    if let [what @ ("make" | "make-script"), rest @ ..] = words {
        let Some((seed, count, options)) = parse_make(rest) else {
            eprintln!("{USAGE}");
            return Ok(false);
        };
        match *what {
            "make" => print(&make_sequence(seed, count, options))?,
            _ => print(make_script(seed, count, options).as_bytes())?,
        }
        return Ok(true);
    }
    match words {
        ["cover"] => print(play::cover(&input()?).table().as_bytes())?,
        ["check-law"] => {
            let law = play::check_law(&input()?);
            for breach in &law.breaches {
                println!("{breach}");
            }
            print(law.counts.table().as_bytes())?;
            let operands = law.counts.count(LawRule::Delivered);
            println!("{operands} operands, {} checks, {} breaches", law.checks, law.breaches.len());
            return Ok(law.breaches.is_empty());
        }
        ["play"] => print(&play::play(&input()?))?,
        ["board"] => print(board::run_script(&input()?).0.as_bytes())?,
        _ => {
            eprintln!("{USAGE}");
            return Ok(false);
        }
    }
    Ok(true)
}

fn main() -> ExitCode {
    let words: Vec<String> = std::env::args().skip(1).collect();
    let words: Vec<&str> = words.iter().map(String::as_str).collect();
    match run(&words) {
        Ok(true) => ExitCode::SUCCESS,
        Ok(false) => ExitCode::from(2),
        Err(error) => {
            eprintln!("{error}");
            ExitCode::FAILURE
        }
    }
}
