//! The picture: a panel for each run, with what each side sends over time, blocks as bars, where the rate limit bites,
//! and the aggregate delays.

use crate::run::Run;
use crate::table::ms;
use crate::{MS, RATE, WINDOW};
use maybenot_core::Side;
use std::fmt::Write;

/// Sizes in pixels: the page, the plot in it, and the parts of a panel from its top.
const WIDTH: u64 = 900;
const LEFT: u64 = 118;
const PLOT: u64 = 756;
const FIRST_PANEL: u64 = 116;
const PANEL: u64 = 214;
const LANES: [u64; 2] = [64, 96];
const LANE: u64 = 26;
const LIMIT: f64 = 3.0;
const DELAY_TOP: u64 = 122;
const DELAY: u64 = 56;

/// The colours of packets, padding, blocks, the rate limit, and of the two delays.
const PACKET: &str = "#0b5fa5";
const PADDING: &str = "#e8932b";
const BLOCK: &str = "#d5dbe3";
const BITES: &str = "#d7263d";
const DELAYS: [&str; 2] = ["#1f2933", "#b0326e"];
const DASHES: [&str; 2] = ["", " stroke-dasharray=\"5 3\""];

/// What the axes reach to, in nanoseconds.
struct Scale {
    time: u64,
    delay: u64,
}

/// The least multiple of a step that is not below n.
fn up_to(n: u64, step: u64) -> u64 {
    n.div_ceil(step).max(1) * step
}

impl Scale {
    fn of(runs: &[Run]) -> Scale {
        let moments = runs.iter().flat_map(|r| r.sent.iter().map(|s| s.moment));
        let delays = runs.iter().flat_map(|r| r.sums.iter().flat_map(|s| s.of));
        Scale {
            time: up_to(moments.max().unwrap_or(0), 100 * MS),
            delay: up_to(delays.max().unwrap_or(0), 50 * MS),
        }
    }

    /// Where a moment stands on the page.
    fn x(&self, moment: u64) -> f64 {
        LEFT as f64 + PLOT as f64 * moment.min(self.time) as f64 / self.time as f64
    }

    /// Where a delay stands below the top of its strip.
    fn y(&self, delay: u64) -> f64 {
        DELAY as f64 * (1.0 - delay as f64 / self.delay as f64)
    }
}

fn text(out: &mut String, x: f64, y: f64, class: &str, words: &str) {
    let _ = writeln!(
        out,
        r#"<text x="{x:.1}" y="{y:.1}" class="{class}">{words}</text>"#
    );
}

fn rectangle(out: &mut String, x: f64, y: f64, width: f64, height: f64, colour: &str) {
    let _ = writeln!(
        out,
        r#"<rect x="{x:.1}" y="{y:.1}" width="{width:.1}" height="{height:.1}" fill="{colour}"/>"#
    );
}

fn stroke(out: &mut String, from: (f64, f64), to: (f64, f64), style: &str) {
    let ((a, b), (c, d)) = (from, to);
    let _ = writeln!(
        out,
        r#"<line x1="{a:.1}" y1="{b:.1}" x2="{c:.1}" y2="{d:.1}" {style}/>"#
    );
}

/// A packet is a tall bar, padding a short one, both on the middle of their lane.
fn mark(out: &mut String, x: f64, middle: f64, padding: bool) {
    let (height, colour) = if padding {
        (9.0, PADDING)
    } else {
        (20.0, PACKET)
    };
    rectangle(out, x - 1.0, middle - height / 2.0, 2.0, height, colour);
}

fn head(out: &mut String, height: u64) {
    let _ = writeln!(
        out,
        r#"<svg xmlns="http://www.w3.org/2000/svg" width="{WIDTH}" height="{height}" viewBox="0 0 {WIDTH} {height}" font-family="Helvetica, Arial, sans-serif">
<style>text {{ fill: #1f2933; font-size: 12px }} .title {{ font-size: 20px; font-weight: bold }} .name {{ font-size: 14px; font-weight: bold }} .right {{ text-anchor: end }} .middle {{ text-anchor: middle }} .small {{ fill: #52606d; font-size: 11px }} .smallright {{ fill: #52606d; font-size: 11px; text-anchor: end }}</style>
<rect width="{WIDTH}" height="{height}" fill="white"/>"#
    );
    text(
        out,
        24.0,
        34.0,
        "title",
        "What two padding schedules do to one page load",
    );
    text(
        out,
        24.0,
        54.0,
        "small",
        &format!(
            "When packets and padding leave the client and the server, as the event core forecasts it. Network delay 30 ms each way, rate limit {RATE} packets in {} ms.",
            WINDOW / MS
        ),
    );
}

fn legend(out: &mut String) {
    let y = 82.0;
    mark(out, 28.0, y, false);
    text(out, 38.0, y + 4.0, "", "packet");
    mark(out, 104.0, y, true);
    text(out, 114.0, y + 4.0, "", "padding");
    rectangle(out, 186.0, y - 7.0, 26.0, 14.0, BLOCK);
    text(out, 220.0, y + 4.0, "", "side is blocked");
    rectangle(out, 322.0, y - LIMIT / 2.0, 26.0, LIMIT, BITES);
    text(out, 356.0, y + 4.0, "", "rate limit bites");
    for (at, side) in Side::BOTH.into_iter().enumerate() {
        let x = 460.0 + 210.0 * at as f64;
        delay_line(out, &format!("{x:.1},{y:.1} {:.1},{y:.1}", x + 28.0), at);
        text(
            out,
            x + 36.0,
            y + 4.0,
            "",
            &format!("aggregate delay of the {side}"),
        );
    }
}

fn delay_line(out: &mut String, points: &str, side: usize) {
    let _ = writeln!(
        out,
        r#"<polyline points="{points}" fill="none" stroke="{}" stroke-width="1.8"{}/>"#,
        DELAYS[side], DASHES[side]
    );
}

/// Until when the rate limit bites in a run.
fn bites(run: &Run) -> String {
    let until = |side: Side| {
        Some(format!(
            "the {side} until {} ms",
            ms(run.bites_until(side)?)
        ))
    };
    let sides: Vec<String> = Side::BOTH.into_iter().filter_map(until).collect();
    if sides.is_empty() {
        return "The rate limit does not bite.".to_string();
    }
    format!("The rate limit bites {}.", sides.join(", "))
}

/// The lanes of a panel: blocks first, then what is sent, padding below packets, and where the rate limit bites.
fn lanes(out: &mut String, run: &Run, scale: &Scale, top: f64) {
    let middle = |side: Side| top + LANES[usize::from(side == Side::Server)] as f64;
    for side in Side::BOTH {
        text(
            out,
            LEFT as f64 - 10.0,
            middle(side) + 4.0,
            "right",
            &format!("{side} sends"),
        );
    }
    for b in &run.blocked {
        let (from, to) = (scale.x(b.from), scale.x(b.to));
        let lane_top = middle(b.side) - LANE as f64 / 2.0;
        rectangle(out, from, lane_top, to - from, LANE as f64, BLOCK);
    }
    for padding in [true, false] {
        for s in run.sent.iter().filter(|s| s.padding == padding) {
            mark(out, scale.x(s.moment), middle(s.side), padding);
        }
    }
    for b in &run.bites {
        let (from, to) = (scale.x(b.from), scale.x(b.until));
        let top = middle(b.side) + LANE as f64 / 2.0 + 1.0;
        rectangle(out, from, top, to - from, LIMIT, BITES);
    }
}

/// The aggregate delays of a panel as two step lines.
fn delays(out: &mut String, run: &Run, scale: &Scale, top: f64) {
    let top = top + DELAY_TOP as f64;
    let bottom = top + DELAY as f64;
    let frame = r##"stroke="#9aa5b1" stroke-width="1""##;
    stroke(out, (LEFT as f64, top), (LEFT as f64, bottom), frame);
    stroke(
        out,
        (LEFT as f64, bottom),
        ((LEFT + PLOT) as f64, bottom),
        frame,
    );
    text(
        out,
        LEFT as f64 - 44.0,
        (top + bottom) / 2.0 + 4.0,
        "right",
        "delay, ms",
    );
    let greatest = (scale.delay / MS).to_string();
    text(out, LEFT as f64 - 10.0, top + 8.0, "smallright", &greatest);
    text(out, LEFT as f64 - 10.0, bottom, "smallright", "0");
    for side in [1, 0] {
        let mut points = String::new();
        let mut before = 0;
        for s in &run.sums {
            let (x, then, now) = (scale.x(s.moment), scale.y(before), scale.y(s.of[side]));
            let _ = write!(points, "{x:.1},{:.1} {x:.1},{:.1} ", top + then, top + now);
            before = s.of[side];
        }
        let _ = write!(points, "{},{:.1}", LEFT + PLOT, top + scale.y(before));
        delay_line(out, &points, side);
    }
}

/// Light lines every 100 ms through a panel.
fn grid(out: &mut String, scale: &Scale, top: f64) {
    let light = r##"stroke="#eceff3" stroke-width="1""##;
    for moment in (0..=scale.time).step_by(100 * MS as usize) {
        let x = scale.x(moment);
        let bottom = top + (DELAY_TOP + DELAY) as f64;
        stroke(out, (x, top + 46.0), (x, bottom), light);
    }
}

/// The numbers of the time axis below the last panel, and what the delay means.
fn axis(out: &mut String, scale: &Scale, bottom: f64) {
    for moment in (0..=scale.time).step_by(100 * MS as usize) {
        let number = (moment / MS).to_string();
        text(out, scale.x(moment), bottom + 18.0, "middle", &number);
    }
    let middle = LEFT as f64 + PLOT as f64 / 2.0;
    text(out, middle, bottom + 38.0, "middle", "time, ms");
    text(
        out,
        24.0,
        bottom + 64.0,
        "small",
        "Aggregate delay: by how much what a side has still to send is late. To an observer packets and padding look alike.",
    );
    text(
        out,
        24.0,
        bottom + 80.0,
        "small",
        "The rate limit bites: one more packet would be delayed. At the end of a mark the count falls, by one at least, if nothing else is sent.",
    );
}

/// The whole picture as SVG.
pub fn picture(runs: &[Run]) -> String {
    let scale = Scale::of(runs);
    let bottom = FIRST_PANEL + PANEL * runs.len() as u64 - 30;
    let mut out = String::new();
    head(&mut out, bottom + 96);
    legend(&mut out);
    axis(&mut out, &scale, bottom as f64);
    for (at, run) in runs.iter().enumerate() {
        let top = (FIRST_PANEL + PANEL * at as u64) as f64;
        text(&mut out, 24.0, top + 16.0, "name", run.plan.name);
        let right = (LEFT + PLOT) as f64;
        text(&mut out, right, top + 16.0, "smallright", &bites(run));
        text(&mut out, 24.0, top + 34.0, "small", run.plan.says);
        grid(&mut out, &scale, top);
        lanes(&mut out, run, &scale, top);
        delays(&mut out, run, &scale, top);
    }
    out.push_str("</svg>\n");
    out
}
