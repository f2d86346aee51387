//! The stored call lists through the safe crate, one by one and as lists of calls: every line of their answers is compared.

mod lists;

use lists::random::Random;
use lists::Lists;
use std::path::Path;

/// The lists and their answers, as the repository keeps them.
const STORED: [(&str, &str); 3] = [
    ("crates/forecast/stdin", "crates/forecast/stdout"),
    ("runs/lists/edges.txt", "runs/lists/edges.answers"),
    ("runs/lists/starred.txt", "runs/lists/starred.answers"),
];

fn read(name: &str) -> Vec<u8> {
    let path = Path::new(env!("CARGO_MANIFEST_DIR")).join("..").join(name);
    std::fs::read(&path).unwrap_or_else(|why| panic!("{}: {why}", path.display()))
}

/// Whether an answer is the stored one. The original has no records: its `free -` stands for any number.
fn same(ours: &str, stored: &str) -> bool {
    ours == stored || (stored == "free -" && ours.starts_with("free "))
}

/// Compares the answers of one list line by line, and counts them.
fn compared(mut lists: Lists, calls: &str, answers: &str) -> usize {
    let ours = lists.answers(&read(calls));
    let stored = String::from_utf8(read(answers)).expect("answers are plain text");
    let stored: Vec<&str> = stored.lines().collect();
    for (at, (a, b)) in ours.iter().zip(&stored).enumerate() {
        assert!(same(a, b), "{answers}, line {}: {a}, stored {b}", at + 1);
    }
    assert_eq!(ours.len(), stored.len(), "{answers}: the number of lines");
    ours.len()
}

#[test]
fn stored_lists_are_answered_as_stored() {
    for (calls, answers) in STORED {
        let lines = compared(Lists::new(), calls, answers);
        println!("{calls}: {lines} lines of answers are as stored in {answers}");
        assert!(lines > 0);
    }
}

#[test]
fn lists_of_calls_are_answered_as_stored() {
    for seed in 0..20 {
        for (calls, answers) in STORED {
            let lists = Lists::as_lists(Random::new(seed, &read(calls)));
            assert!(compared(lists, calls, answers) > 0);
        }
    }
}
