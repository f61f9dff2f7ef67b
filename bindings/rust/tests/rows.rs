//! Rows as they are filled beside the whole plane, on many random planes and cuttings: the same plane and summed counts, final rows that stay, and the refusals of a call.

mod drawn;

use bihargesh::{deblock_plane, deblock_rows, Counts, Reason, Refusal, RowState};
use drawn::{Case, Random};

/// A cutting of so many rows of cells: counts that rise or stay, in fours, up to full height. One row of cells after the other, all at once, or any; now and then a count
/// stands there twice, full height too.
fn cutting(r: &mut Random, rows: usize) -> Vec<usize> {
    let mut cuts: Vec<usize> = match r.below(6) {
        0 => (1..rows).collect(),
        1 => Vec::new(),
        _ => (0..r.below(6)).map(|_| r.below(rows as u64 + 1) as usize).collect(),
    };
    cuts.push(rows);
    if r.below(3) == 0 {
        cuts.push(r.one_of(&cuts));
    }
    if r.below(4) == 0 {
        cuts.push(rows);
    }
    cuts.sort();
    cuts.iter().map(|cut| 4 * cut).collect()
}

/// Sends a plane row by row: what lies below the filled rows is rubbish. The plane and the summed counts, or the refusal with the state and the count that met it.
fn sent(case: &Case, cuts: &[usize], r: &mut Random) -> Result<(Vec<u16>, Counts), (Refusal, RowState, usize)> {
    let (stride, rows, steps) = (case.settings.stride as usize, 4 * case.settings.rows as usize, bihargesh::steps());
    let (mut plane, mut state, mut sums, mut from, mut last) = (vec![65535; case.plane.len()], RowState::default(), Counts::default(), 0, 0);
    let mut done: Vec<u16> = Vec::new();
    // where a row begins; a damaged stride may lead beyond the plane
    let at = |row: usize| (row * stride).min(case.plane.len());
    for &filled in cuts {
        plane[at(from)..at(filled)].copy_from_slice(&case.plane[at(from)..at(filled)]);
        for sample in &mut plane[at(filled)..] {
            *sample = r.below(65536) as u16;
        }
        let lent = plane.clone();
        match deblock_rows(&mut plane, case.grid(), &steps, case.settings, filled, &mut state) {
            Ok((final_rows, counts)) => {
                assert_eq!(final_rows, if filled == rows { rows } else { filled.saturating_sub(12) });
                assert_eq!(plane[at(filled)..], lent[at(filled)..], "rows that were not filled");
                assert_eq!(plane[..at(last)], done[..], "rows that were called final");
                (sums.stored, sums.changed, from, last) = (sums.stored + counts.stored, sums.changed + counts.changed, filled, final_rows);
                done = plane[..at(last)].to_vec();
            }
            Err(refusal) => {
                assert_eq!(plane, lent, "a refused call");
                return Err((refusal, state, from));
            }
        }
    }
    assert_eq!(state, RowState { held: rows, spent: false });
    Ok((plane, sums))
}

#[test]
fn as_the_whole_plane() {
    let mut r = Random(20_261_117);
    let (mut accepted, mut changed, mut refused) = (0, 0, [0; 16]);
    for _ in 0..3000 {
        let mut case = Case::drawn(&mut r);
        if r.below(4) == 0 {
            case.damage(&mut r);
        }
        let cuts = cutting(&mut r, case.settings.rows as usize);
        let (told, plane) = case.run(deblock_plane);
        match (sent(&case, &cuts, &mut r), told) {
            (Ok((ours, sums)), Ok(counts)) => {
                assert_eq!((ours, sums), (plane, counts));
                (accepted, changed) = (accepted + 1, changed + counts.changed);
            }
            (Err((ours, state, from)), Err(refusal)) => {
                assert_eq!(ours, refusal);
                assert_eq!(state, RowState { held: from, spent: refusal.reason == Reason::Sample });
                refused[refusal.reason.number() as usize] += 1;
            }
            (ours, told) => panic!("{ours:?} beside {told:?}"),
        }
    }
    println!("Rust, rows: {accepted} planes accepted, {changed} samples changed; refused by 1..8: {:?}", &refused[1..9]);
    assert!(accepted > 1000 && changed > 10_000 && refused[8] > 10, "too little was filtered or refused");
}

/// A bad sample in any row: the calls before its own are accepted, its own is refused by 8, and each further one by 15, whatever it is told; state and plane stay then.
#[test]
fn spent_by_a_bad_sample() {
    let mut r = Random(20_261_119);
    let (mut met, steps) = ([0; 4], bihargesh::steps());
    for _ in 0..2000 {
        let mut case = Case::drawn(&mut r);
        if case.run(deblock_plane).0.is_err() {
            continue;
        }
        let (rows, stride) = (4 * case.settings.rows as usize, case.settings.stride as usize);
        let (row, column) = (r.below(rows as u64) as usize, r.below(4 * case.settings.cols as u64) as usize);
        let good = case.plane.clone();
        case.plane[row * stride + column] = r.one_of(&[1 << case.settings.depth, 65535]);
        let cuts = cutting(&mut r, rows / 4);
        let before = cuts.iter().filter(|&&filled| filled <= row).count();
        let (refusal, state, held) = sent(&case, &cuts, &mut r).expect_err("a bad sample");
        assert_eq!((refusal.reason, refusal.place), (Reason::Sample, row * stride + column));
        assert_eq!((state, held), (RowState { held, spent: true }, before.checked_sub(1).map_or(0, |last| cuts[last])));
        for filled in [held, held + 4, rows, rows + 4, 3] {
            let (mut plane, mut again) = (good.clone(), state);
            let told = deblock_rows(&mut plane, case.grid(), &steps, case.settings, filled, &mut again).map_err(|refusal| refusal.reason);
            assert_eq!((told, again, &plane), (Err(Reason::Spent), state, &good));
        }
        met[before.min(3)] += 1;
    }
    println!("Rust, rows: a bad sample in the first call, the second, the third, a later one: {met:?}");
    assert!(met.iter().all(|&n| n > 20), "too few bad samples");
}

/// Refusals 14 and 15: which counts, which order, and that the state stays.
#[test]
fn counts_and_spent_states() {
    let mut r = Random(20_261_118);
    let steps = bihargesh::steps();
    let mut case = Case::drawn(&mut r);
    while case.settings.rows < 4 || case.run(deblock_plane).0.is_err() {
        case = Case::drawn(&mut r);
    }
    let rows = 4 * case.settings.rows as usize;
    let call = |held, spent, filled| {
        let (mut plane, mut state) = (case.plane.clone(), RowState { held, spent });
        let told = deblock_rows(&mut plane, case.grid(), &steps, case.settings, filled, &mut state).map_err(|refusal| refusal.reason);
        assert!(told.is_ok() || (plane == case.plane && state == RowState { held, spent }));
        told.map(|(last, _)| last)
    };
    for (held, filled) in [(0, 2), (0, rows + 4), (0, usize::MAX), (2, 4), (rows + 4, rows + 4), (8, 4), (usize::MAX, 4)] {
        assert_eq!(call(held, false, filled), Err(Reason::Rows), "{held} {filled}");
        assert_eq!(call(held, true, filled), Err(Reason::Spent));
    }
    assert_eq!(call(4, false, 4), Ok(0));
    assert_eq!(call(rows, false, rows), Ok(rows));
    assert_eq!(call(0, true, 4), Err(Reason::Spent));
}
