//! A driver for the event core, as an example: one page load over a line, forecast without a defence, with padding at a
//! constant rate, and with blocks that packets pass only in the place of padding.
//!
//! The driver is no part of the core, and nothing is proved of it. It has no machine framework, draws no random numbers
//! and reads no trace: the packet list and the padding schedules below are written by hand. What it shows is the loop
//! that a driver makes: choose, step on the chosen event at its moment, set what the schedule asks for next.
//!
//!     cargo run --example forecast_line               prints the tables
//!     cargo run --example forecast_line -- line.svg   writes the picture too

mod picture;
mod run;
mod table;

use maybenot_core::{
    same_forecast, Action, Core, Kind, Opening, Refusal, Side, SideOpening, SimEvent,
};
use run::{Plan, Repeated, Run};
use std::process::ExitCode;

/// Nanoseconds in a millisecond.
pub const MS: u64 = 1_000_000;

/// The rate limit: the most packets in a window that a side sends without extra delay. The window holds ten packets of
/// the server's padding; 100 ms would hold eleven, since a packet of the window's age still counts.
pub const RATE: u64 = 20;
pub const WINDOW: u64 = 99 * MS;

/// The packet list: when each side hands in its packets, in milliseconds. The client asks three times, and the server
/// answers with a burst each time.
const CLIENT_SENDS: [u64; 10] = [20, 84, 90, 150, 300, 306, 372, 624, 630, 694];
const SERVER_SENDS: [u64; 30] = [
    54, 120, 126, 132, 138, 144, 150, 156, 186, 336, 342, 348, 354, 360, 366, 372, 378, 384, 408,
    660, 666, 672, 678, 684, 690, 696, 702, 708, 714, 732,
];

/// The line: 30 ms between the sides, a rate limit, and one machine for padding, one for blocks on each side.
fn line() -> Opening {
    let side = SideOpening {
        machines: 2,
        ..SideOpening::default()
    };
    Opening {
        network_delay: 30 * MS,
        network_rate: Some(RATE),
        window: WINDOW,
        client: side,
        server: side,
        ..Opening::default()
    }
}

/// Padding from the start to 1,000 ms, one packet every so many milliseconds.
fn padding(side: Side, every: u64, action: Action) -> Repeated {
    Repeated {
        side,
        machine: 0,
        action,
        every: every * MS,
        until: 1_000 * MS,
    }
}

/// Two blocks of 400 ms, from 40 and from 540 ms on, that bypassing packets pass.
fn blocks(side: Side) -> Repeated {
    Repeated {
        side,
        machine: 1,
        action: Action {
            bypass: true,
            ..Action::block_outgoing(40 * MS, 400 * MS)
        },
        every: 500 * MS,
        until: 540 * MS,
    }
}

fn plans() -> [Plan; 3] {
    let plain = Action::send_padding(0);
    let in_place = Action {
        bypass: true,
        replace: true,
        ..plain
    };
    [
        Plan {
            name: "Without a defence",
            says: "Packets leave when they are handed in, and the bursts show.",
            schedule: vec![],
        },
        Plan {
            name: "Padding at a constant rate",
            says: "Padding every 20 ms from the client, every 10 ms from the server. No packet waits, the bursts still show, and meet the rate limit.",
            schedule: vec![
                padding(Side::Client, 20, plain),
                padding(Side::Server, 10, plain),
            ],
        },
        Plan {
            name: "Block and replace",
            says: "The same padding. In a block a packet leaves only in the place of padding; what still waits leaves at its end.",
            schedule: vec![
                blocks(Side::Client),
                blocks(Side::Server),
                padding(Side::Client, 20, in_place),
                padding(Side::Server, 10, in_place),
            ],
        },
    ]
}

/// The packets of a side, in nanoseconds.
pub fn listed(side: Side) -> Vec<u64> {
    match side {
        Side::Client => CLIENT_SENDS.iter().map(|t| t * MS).collect(),
        Side::Server => SERVER_SENDS.iter().map(|t| t * MS).collect(),
    }
}

fn forecast() -> Result<Vec<Run>, Refusal> {
    plans().into_iter().map(|p| run::run(&line(), p)).collect()
}

/// The line with the packet list handed in, each side's first packet first or last.
fn handed_in(backwards: bool) -> Result<Core<'static>, Refusal> {
    let mut core = Core::with_records(64, &line())?;
    for side in Side::BOTH {
        let mut moments = listed(side);
        if backwards {
            moments.reverse();
        }
        for moment in moments {
            core.push_sim(&SimEvent::new(Kind::NORMAL_SENT, side, moment))?;
        }
    }
    Ok(core)
}

/// What two routers hold that were handed the packet list in another order, as support staff would compare their blocks.
fn compared() -> Result<String, Refusal> {
    let (one, other) = (handed_in(false)?, handed_in(true)?);
    let words = match one.words() == other.words() {
        true => "the same words",
        false => "other words",
    };
    let forecast = match same_forecast(one.words(), other.words())? {
        true => "the same forecast",
        false => "another forecast",
    };
    Ok(format!(
        "The packet list handed in backwards: {words}, {forecast}."
    ))
}

fn main() -> ExitCode {
    let (runs, compared) = match forecast().and_then(|runs| Ok((runs, compared()?))) {
        Ok(made) => made,
        Err(refusal) => {
            eprintln!("forecast_line: {refusal}");
            return ExitCode::FAILURE;
        }
    };
    print!("{}", table::tables(&runs));
    println!("\n{compared}");
    if let Some(path) = std::env::args_os().nth(1) {
        if let Err(why) = std::fs::write(&path, picture::picture(&runs)) {
            eprintln!("forecast_line: {}: {why}", path.to_string_lossy());
            return ExitCode::FAILURE;
        }
    }
    ExitCode::SUCCESS
}
