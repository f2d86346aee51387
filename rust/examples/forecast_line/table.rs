//! The tables: when each packet of the list leaves, and what each schedule costs.

use crate::run::{Run, Sent};
use crate::{listed, MS, RATE, WINDOW};
use maybenot_core::Side;

/// A moment or a length in milliseconds, with one digit after the point.
pub fn ms(nanoseconds: u64) -> String {
    format!("{}.{}", nanoseconds / MS, nanoseconds % MS / (MS / 10))
}

/// The packets of a side that are no padding, in the order in which they leave.
fn packets(run: &Run, side: Side) -> Vec<&Sent> {
    let wanted = |s: &&Sent| s.side == side && !s.padding;
    run.sent.iter().filter(wanted).collect()
}

fn count(run: &Run, side: Side, padding: bool) -> usize {
    let wanted = |s: &&Sent| s.side == side && s.padding == padding;
    run.sent.iter().filter(wanted).count()
}

/// A row for each packet of the list: its moment there, and when it leaves in each run.
fn leaving(runs: &[Run]) -> String {
    let mut text = String::from("When each packet leaves, in ms\n\n");
    text.push_str("packet      in the list");
    for run in runs {
        text.push_str(&format!("  {:>26}", run.plan.name));
    }
    text.push('\n');
    for side in Side::BOTH {
        for (at, moment) in listed(side).into_iter().enumerate() {
            text.push_str(&format!("{side} {:>2} {:>13}", at + 1, ms(moment)));
            for run in runs {
                let left = packets(run, side)
                    .get(at)
                    .map_or("-".to_string(), |s| ms(s.moment));
                text.push_str(&format!("  {left:>26}"));
            }
            text.push('\n');
        }
    }
    text
}

/// A line of the second table.
fn row(name: &str, runs: &[Run], of: impl Fn(&Run) -> String) -> String {
    let mut text = format!("{name:<30}");
    for run in runs {
        text.push_str(&format!("  {:>26}", of(run)));
    }
    text.push('\n');
    text
}

/// The aggregate delay of a side at the end.
fn sum_at_end(run: &Run, side: usize) -> u64 {
    run.sums.last().map_or(0, |s| s.of[side])
}

fn costs(runs: &[Run]) -> String {
    let greatest = |run: &Run| run.sent.iter().map(|s| s.late).max().unwrap_or(0);
    let mut text = String::from("\nWhat it costs\n\n");
    text.push_str(&row("", runs, |r| r.plan.name.to_string()));
    for (at, side) in Side::BOTH.into_iter().enumerate() {
        text.push_str(&row(&format!("{side}: packets sent"), runs, |r| {
            count(r, side, false).to_string()
        }));
        text.push_str(&row(&format!("{side}: padding sent"), runs, |r| {
            count(r, side, true).to_string()
        }));
        text.push_str(&row(&format!("{side}: aggregate delay, ms"), runs, |r| {
            ms(sum_at_end(r, at))
        }));
        text.push_str(&row(&format!("{side}: limit bites until, ms"), runs, |r| {
            r.bites_until(side).map_or("-".to_string(), ms)
        }));
    }
    text.push_str(&row("latest packet late by, ms", runs, |r| ms(greatest(r))));
    text.push_str(&row("last packet received at, ms", runs, |r| {
        ms(r.last_received)
    }));
    text.push_str(&row("events chosen", runs, |r| r.steps.to_string()));
    text.push('\n');
    text.push_str(&limit());
    text
}

/// What it means that the limit bites until a moment.
fn limit() -> String {
    format!(
        "The limit bites: the side has sent {RATE} packets or more in {} ms, and one more would be delayed.\n\
         At the moment given the count falls, by one at least, if nothing else is sent.\n",
        WINDOW / MS
    )
}

/// Both tables.
pub fn tables(runs: &[Run]) -> String {
    leaving(runs) + &costs(runs)
}
