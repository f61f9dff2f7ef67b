//! The oracle's commands: cases of one part of the port, answered by the published Rust, on standard output.

mod ccso;
mod damage;
mod differences;
mod frame;
mod grid;
mod keep;
mod line;
mod made;
mod picture;
mod plane;
mod random;
mod record;
mod refusals;
mod replay;
mod rows;
mod rust;
mod segment;
mod summary;
mod thresholds;
mod tiles;

// The published files name each other below `crate::av2`.
use rust as av2;

use line::Line;
use made::Make;
use random::Random;
use std::io::{self, BufWriter, Write};
use std::process::exit;
use summary::Summary;

const USAGE: &str = "oracle thresholds|segment|segment-limits|segment-window|plane|plane-bins|plane-dark|plane-tiles|plane-room|plane-keep|plane-record|plane-replay|rows|grid|grid-keep|frame|frame-bins|frame-tiles|frame-keep|ccso N SEED [--only accepted|refused], or: oracle differences";

fn part(name: &str) -> Option<Make> {
    match name {
        "thresholds" => Some(thresholds::make),
        "segment" => Some(segment::make),
        "segment-limits" => Some(segment::make_limits),
        "segment-window" => Some(segment::make_window),
        "plane" => Some(plane::make),
        "plane-bins" => Some(plane::make_bins),
        "plane-dark" => Some(plane::make_dark),
        "plane-tiles" => Some(plane::make_tiles),
        "plane-room" => Some(plane::make_room_at_one),
        "plane-keep" => Some(plane::make_keep),
        "plane-record" => Some(record::make),
        "plane-replay" => Some(replay::make),
        "rows" => Some(rows::make),
        "grid" => Some(grid::make),
        "grid-keep" => Some(grid::make_keep),
        "frame" => Some(frame::make),
        "frame-bins" => Some(frame::make_bins),
        "frame-tiles" => Some(frame::make_tiles),
        "frame-keep" => Some(frame::make_keep),
        "ccso" => Some(ccso::make),
        _ => None,
    }
}

/// The answers that are wanted: all, or only the refused ones, or only the accepted ones.
fn wanted(words: &[String]) -> Option<Option<bool>> {
    match words {
        [] => Some(None),
        [flag, which] if flag == "--only" && which == "refused" => Some(Some(true)),
        [flag, which] if flag == "--only" && which == "accepted" => Some(Some(false)),
        _ => None,
    }
}

fn run(make: Make, n: u64, seed: u64, only: Option<bool>, out: &mut impl Write) -> io::Result<Summary> {
    let random = Random::new(seed);
    let mut summary = Summary::default();
    let mut last: Option<Vec<u32>> = None;
    let mut written: Option<Vec<u32>> = None;
    let mut left = n;
    while left > 0 {
        let refused = only.unwrap_or_else(|| random.once_in(3));
        let made = make(&random, refused, last.as_deref());
        last.clone_from(&made.steps);
        if only.is_some_and(|wanted| wanted != made.refusal.is_some()) {
            continue;
        }
        if made.steps != written {
            let steps = made.steps.as_deref().unwrap_or(&[]);
            out.write_all(&Line::new(1).list(steps).text())?;
            out.write_all(b"\n")?;
            written.clone_from(&made.steps);
        }
        out.write_all(&made.line.text())?;
        out.write_all(b"\n")?;
        summary.count(&made);
        left -= 1;
    }
    out.flush()?;
    Ok(summary)
}

fn main() {
    let words: Vec<String> = std::env::args().skip(1).collect();
    if words == ["differences"] {
        exit(if differences::show() { 0 } else { 1 });
    }
    let asked = match words.as_slice() {
        [name, n, seed, rest @ ..] => match (part(name), n.parse(), seed.parse(), wanted(rest)) {
            (Some(make), Ok(n), Ok(seed), Some(only)) => Some((make, n, seed, only)),
            _ => None,
        },
        _ => None,
    };
    let Some((make, n, seed, only)) = asked else {
        eprintln!("{USAGE}");
        exit(2);
    };
    let mut out = BufWriter::with_capacity(1 << 20, io::stdout().lock());
    match run(make, n, seed, only, &mut out) {
        Ok(summary) => {
            summary.print(&words[0], seed);
            if summary.impossible() {
                eprintln!("a width of 5 or 7 occurred");
                exit(1);
            }
        }
        Err(error) => {
            eprintln!("writing stopped: {error}");
            exit(1);
        }
    }
}
