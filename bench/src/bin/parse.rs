//! What reading a call list costs a plain Rust program at least: standard input
//! is split into lines and words, each word of digits is parsed as a u64, and one
//! line is written for each line read. No call is made.

use std::io::{BufRead, Write};

fn main() {
    let mut input = std::io::BufReader::with_capacity(1 << 16, std::io::stdin().lock());
    let mut out = std::io::BufWriter::with_capacity(1 << 16, std::io::stdout().lock());
    let mut line = String::new();
    let mut sum: u64 = 0;
    loop {
        line.clear();
        if input.read_line(&mut line).unwrap() == 0 {
            break;
        }
        let mut good = true;
        for word in line.split_ascii_whitespace().skip(1) {
            match word.parse::<u64>() {
                Ok(n) => sum = sum.wrapping_add(n),
                Err(_) => good &= word == "c" || word == "s" || word == "-",
            }
        }
        out.write_all(if good { b"ok\n" } else { b"bad line\n" })
            .unwrap();
    }
    out.flush().unwrap();
    // so that no number is left unparsed
    if sum == 1 {
        eprintln!("1");
    }
}
