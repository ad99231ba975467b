//! An independent program for halls, to compare ours with and to time it against. It shares no text with the crates:
//! the rules are those of docs/, written again.
//!
//!     oracle                 the answer to the file on standard input
//!     oracle batch           the answers to many files, a line of hexadecimal digits each on standard input
//!     oracle random SEED N   N random halls, whole and damaged, as such lines
//!     oracle work            of the two runs of that file: the last tick with an end, ticks with an end, firings ended

mod file;
mod random;
mod run;

use std::io::{self, Read, Write};

/// What the program prints for a file.
fn answer(bytes: &[u8]) -> String {
    match file::read(bytes) {
        Ok(graph) => {
            let (rate, held) = run::rates(&graph, |_, _, _| ());
            format!("RATE {rate}\nHELD {held}\n")
        }
        Err(fault) => format!("{fault}\n"),
    }
}

fn input() -> io::Result<Vec<u8>> {
    let mut bytes = Vec::with_capacity(1024);
    io::stdin().lock().read_to_end(&mut bytes)?;
    Ok(bytes)
}

fn from_hex(line: &str) -> Vec<u8> {
    let digit = |c: u8| (c as char).to_digit(16).expect("a hexadecimal digit") as u8;
    line.as_bytes().chunks(2).map(|two| digit(two[0]) * 16 + digit(two[1])).collect()
}

fn to_hex(bytes: &[u8]) -> String {
    bytes.iter().map(|b| format!("{b:02x}")).collect()
}

fn number(word: &str) -> u64 {
    word.parse().expect("a number")
}

fn main() -> io::Result<()> {
    let words: Vec<String> = std::env::args().skip(1).collect();
    let words: Vec<&str> = words.iter().map(String::as_str).collect();
    let mut out = io::stdout().lock();
    match words[..] {
        [] => out.write_all(answer(&input()?).as_bytes()),
        ["work"] => {
            let Ok(graph) = file::read(&input()?) else { return Ok(()) };
            let mut work = [(0, 0, 0); 2];
            run::rates(&graph, |held, tick, _| {
                let (last, leaps, firings) = &mut work[held as usize];
                *leaps += (*last != tick) as u32;
                *last = tick;
                *firings += 1;
            });
            for (last, leaps, firings) in work {
                writeln!(out, "{last} {leaps} {firings}")?;
            }
            Ok(())
        }
        ["batch"] => {
            let mut out = io::BufWriter::new(out);
            for line in io::stdin().lines() {
                out.write_all(answer(&from_hex(&line?)).as_bytes())?;
            }
            out.flush()
        }
        ["random", seed, many] => {
            let (seed, many) = (number(seed), number(many));
            let mut out = io::BufWriter::new(out);
            for i in 0..many {
                writeln!(out, "{}", to_hex(&random::numbered(seed, i)))?;
            }
            out.flush()
        }
        _ => {
            eprintln!("oracle [batch | random SEED N | work]");
            std::process::exit(2)
        }
    }
}
