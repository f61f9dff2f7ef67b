//! The record in bindings/records, written on an x86-64 machine: run again it gives the plane that was written beside it.

use bihargesh::{replay, Counts, Reason, Refusal, Replay};
use std::fs;

const SETTINGS: Replay = Replay { cols: 12, rows: 8, stride: 48, depth: 8 };

/// No cell is kept.
const OPEN: [u8; 96] = [0; 96];

fn file(name: &str) -> Vec<u8> {
    let path = format!("{}/../records/{name}", env!("CARGO_MANIFEST_DIR"));
    fs::read(&path).unwrap_or_else(|e| panic!("{path}: {e}"))
}

/// A picture of eight bits a sample.
fn picture(name: &str) -> Vec<u16> {
    let bytes = file(name);
    let samples = bytes.strip_prefix(b"P5\n48 32\n255\n").expect("another header");
    samples.iter().map(|&s| s as u16).collect()
}

#[test]
fn run_again() {
    let (mut plane, after) = (picture("before.pgm"), picture("after.pgm"));
    assert_ne!(plane, after);
    let counts = replay(&mut plane, &file("record.edg"), &OPEN, SETTINGS).unwrap();
    assert_eq!(plane, after);
    assert_eq!(counts, Counts { stored: 1256, changed: 1162 });
}

/// Each edge in a record of its own: its changed samples are those that differ, and the sums are the whole record's counts.
#[test]
fn counts_are_sums() {
    let (mut plane, record) = (picture("before.pgm"), file("record.edg"));
    let whole = replay(&mut plane.clone(), &record, &OPEN, SETTINGS).unwrap();
    let mut sums = Counts::default();
    for entry in record[5..].chunks(10) {
        let before = plane.clone();
        let counts = replay(&mut plane, &[&record[..5], entry].concat(), &OPEN, SETTINGS).unwrap();
        assert_eq!(counts.changed, plane.iter().zip(&before).filter(|(a, b)| a != b).count());
        assert!(counts.changed <= counts.stored && counts.stored <= 64 && counts.stored % 4 == 0);
        sums = Counts { stored: sums.stored + counts.stored, changed: sums.changed + counts.changed };
    }
    assert_eq!(sums, whole);
}

#[test]
fn cut_anywhere() {
    let (before, record) = (picture("before.pgm"), file("record.edg"));
    for n in 0..record.len() {
        let mut plane = before.clone();
        let got = replay(&mut plane, &record[..n], &OPEN, SETTINGS);
        let refused = |reason, place| Err(Refusal { reason, place });
        match n {
            0..=4 => assert_eq!(got, refused(Reason::Header, 0)),
            _ if (n - 5) % 10 != 0 => assert_eq!(got, refused(Reason::Cut, (n - 5) / 10)),
            _ => assert!(got.is_ok()),
        }
        assert!(got.is_ok() || plane == before, "a refusal changed the plane");
    }
}

/// With every cell kept nothing is stored; with one kept its samples stay, and a bad mark is refused with its cell.
#[test]
fn kept_cells() {
    let (before, record) = (picture("before.pgm"), file("record.edg"));
    let mut plane = before.clone();
    assert_eq!(replay(&mut plane, &record, &[1; 96], SETTINGS), Ok(Counts::default()));
    assert_eq!(plane, before);
    for cell in 0..96 {
        let (mut plane, mut keep) = (before.clone(), OPEN);
        keep[cell] = 1;
        let counts = replay(&mut plane, &record, &keep, SETTINGS).unwrap();
        assert!(counts.changed <= counts.stored);
        assert!((0..plane.len()).all(|k| k / 48 / 4 * 12 + k % 48 / 4 != cell || plane[k] == before[k]), "a sample of a kept cell was stored");
        keep[cell] = 2;
        let mut plane = before.clone();
        assert_eq!(replay(&mut plane, &record, &keep, SETTINGS), Err(Refusal { reason: Reason::Cell, place: cell }));
        assert_eq!(plane, before);
    }
    assert_eq!(replay(&mut plane, &record, &OPEN[..95], SETTINGS), Err(Refusal { reason: Reason::Length, place: 0 }));
}
