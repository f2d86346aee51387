//! listed SEED [TALLY]: answers the call list on standard input as `forecast` does, but makes the calls as lists of random
//! lengths, 1 to 400, some of the choices and steps as turns. Each answer and the words left are held to the same calls made
//! one by one; where they differ the program ends with status 101 and says how. A line with the number of lists, rows and
//! turns, and the rows of the longest list, is added to the file TALLY.
//!
//! listed --steps SEED: writes the call list on standard input out again, with the network step of its event behind some
//! of the choices, and some runs of choices and steps.
//!
//! The same SEED and list make the same lists. Bad usage ends with status 2.

#[path = "../../../rust/tests/lists/mod.rs"]
mod lists;
mod steps;

use lists::random::Random;
use lists::Lists;
use std::fs::OpenOptions;
use std::io::{Read, Result, Write};
use std::process::exit;

fn main() -> Result<()> {
    let arguments: Vec<String> = std::env::args().skip(1).collect();
    let arguments: Vec<&str> = arguments.iter().map(String::as_str).collect();
    let mut text = Vec::new();
    std::io::stdin().read_to_end(&mut text)?;
    let random = |seed: &str| Random::new(seed.parse().unwrap_or_else(|_| usage()), &text);
    let lines = match arguments[..] {
        ["--steps", seed] => steps::with_steps(&text, random(seed)),
        [seed] => Lists::as_lists(random(seed)).answers(&text),
        [seed, tally] => {
            let mut lists = Lists::as_lists(random(seed));
            let lines = lists.answers(&text);
            add_tally(tally, &lists)?;
            lines
        }
        _ => usage(),
    };
    let mut out = lines.join("\n");
    out.push('\n');
    std::io::stdout().write_all(out.as_bytes())
}

/// Adds what the lists made to the file, in one write: several programs may add to it at once.
fn add_tally(file: &str, lists: &Lists) -> Result<()> {
    let t = lists.tally();
    let line = format!("{} {} {} {}\n", t.lists, t.rows, t.turns, t.longest);
    let mut file = OpenOptions::new().create(true).append(true).open(file)?;
    file.write_all(line.as_bytes())
}

fn usage() -> ! {
    eprintln!("usage: listed SEED [TALLY] < LIST, or listed --steps SEED < LIST");
    exit(2)
}
