//! Calls document 01's two exported functions from Rust, and holds them to a plain reading of it on many random inputs.

use bihargesh::{segment, thresholds, Counts, Reason, Thresholds};

/// splitmix64
struct Random(u64);

impl Random {
    fn next(&mut self) -> u64 {
        self.0 = self.0.wrapping_add(0x9e37_79b9_7f4a_7c15);
        let mut z = self.0;
        z = (z ^ (z >> 30)).wrapping_mul(0xbf58_476d_1ce4_e5b9);
        z = (z ^ (z >> 27)).wrapping_mul(0x94d0_49bb_1331_11eb);
        z ^ (z >> 31)
    }

    fn below(&mut self, n: i64) -> i64 {
        (self.next() % n as u64) as i64
    }
}

/// A line as document 01 has it: p0.. outwards before the edge, q0.. after it.
struct Line {
    p: [i64; 9],
    q: [i64; 9],
}

const LENGTHS: [(i64, i64); 8] = [(4, 4), (8, 8), (14, 14), (18, 18), (14, 18), (10, 10), (6, 8), (6, 10)];

fn reach(length: i64) -> i64 {
    match length {
        4 | 6 => 3,
        8 => 4,
        10 => 5,
        14 => 7,
        _ => 8,
    }
}

fn bend(a: i64, b: i64, c: i64) -> i64 {
    (a - 2 * b + c).abs()
}

fn mean(a: i64, b: i64) -> i64 {
    (a + b + 1) / 2
}

fn ramp(a: &[i64; 9], b: &[i64; 9], k: usize) -> i64 {
    let one = |s: &[i64; 9]| ((s[0] - s[k]) - k as i64 * (s[0] - s[1])).abs();
    mean(one(a), one(b))
}

/// "Width choice", on lines 0 and 3.
fn choice(a: &Line, b: &Line, n: i64, p: i64, q: i64, side: i64) -> i64 {
    if q == 0 || side == 0 {
        return 0;
    }
    let dm2 = mean(bend(a.p[2], a.p[1], a.p[0]), bend(b.p[2], b.p[1], b.p[0]));
    let d1 = mean(bend(a.q[0], a.q[1], a.q[2]), bend(b.q[0], b.q[1], b.q[2]));
    let dm1 = mean(bend(a.p[1], a.p[0], a.q[0]), bend(b.p[1], b.p[0], b.q[0]));
    let d0 = mean(bend(a.p[0], a.q[0], a.q[1]), bend(b.p[0], b.q[0], b.q[1]));
    let steep = |k: usize, limit: i64| ramp(&a.q, &b.q, k) > limit || (n >= k as i64 && ramp(&a.p, &b.p, k) > limit);
    if dm2 > side || d1 > side {
        return 0;
    }
    if p == 1 || dm2 > side / 4 || d1 > side / 4 || dm1 + d0 > 4 * q {
        return 1;
    }
    if dm2 > side / 8 || d1 > side / 8 || dm1 + d0 > 3 * q || steep(3, 3 * side / 16) {
        return 2;
    }
    if p == 3 {
        return 3;
    }
    for (distance, factor, k, failed) in [(4, 45, 4, 3), (6, 40, 6, 4), (8, 32, 7, 6)] {
        if 16 * (dm1 + d0) > q * factor || steep(k, side * distance / 16) {
            return failed;
        }
        if p <= distance {
            return distance;
        }
    }
    8
}

/// "Taps", on one line, each store counted.
fn taps(l: &mut Line, n: i64, w: i64, q: i64, top: i64, counts: &mut Counts) {
    const M: [i64; 8] = [32, 25, 19, 19, 18, 18, 17, 17];
    const W: [i64; 8] = [85, 51, 37, 28, 23, 20, 17, 15];
    let most = q * M[w as usize - 1];
    let d = (4 * (3 * (l.q[0] - l.p[0]) - (l.q[1] - l.p[1]))).clamp(-most, most);
    let moved = |s: i64, i: i64| (d * W[s as usize - 1] * (s - i) + 1024).div_euclid(2048);
    let mut store = |place: &mut i64, v: i64| {
        counts.stored += 1;
        counts.changed += (*place != v) as usize;
        *place = v;
    };
    for i in 0..n {
        let v = (l.p[i as usize] + moved(n, i)).clamp(0, top);
        store(&mut l.p[i as usize], v);
    }
    for i in 0..w {
        let v = (l.q[i as usize] - moved(w, i)).clamp(0, top);
        store(&mut l.q[i as usize], v);
    }
}

/// What document 01 answers and leaves in the window, and ticket 4's counts.
fn plain_segment(window: &mut [u8], depth: u32, pair: u32, q: u32, side: u32) -> Result<(usize, Counts), Reason> {
    if ![8, 10, 12].contains(&depth) {
        return Err(Reason::Depth);
    }
    if window.len() != 144 {
        return Err(Reason::Length);
    }
    if q > 2048 || side > 839 || pair > 7 {
        return Err(Reason::Setting);
    }
    let top = (1i64 << depth) - 1;
    let (before, after) = LENGTHS[pair as usize];
    let sample = |w: &[u8], j: usize, k: usize| w[2 * (18 * j + k)] as i64 + 256 * w[2 * (18 * j + k) + 1] as i64;
    for j in 0..4 {
        for k in (9 - reach(before) as usize)..(9 + reach(after) as usize) {
            if sample(window, j, k) > top {
                return Err(Reason::Sample);
            }
        }
    }
    let mut lines: Vec<Line> = (0..4)
        .map(|j| Line { p: std::array::from_fn(|k| sample(window, j, 8 - k)), q: std::array::from_fn(|k| sample(window, j, 9 + k)) })
        .collect();
    let n = before / 2 - 1;
    let w = choice(&lines[0], &lines[3], n, after / 2 - 1, q as i64, side as i64);
    let mut counts = Counts::default();
    if w > 0 {
        for l in &mut lines {
            taps(l, n.min(w), w, q as i64, top, &mut counts);
        }
    }
    for (j, l) in lines.iter().enumerate() {
        for k in 0..18 {
            let v = if k < 9 { l.p[8 - k] } else { l.q[k - 9] };
            window[2 * (18 * j + k)] = (v % 256) as u8;
            window[2 * (18 * j + k) + 1] = (v / 256) as u8;
        }
    }
    Ok((w as usize, counts))
}

/// A window that looks like a picture: flat, ramp, step or noise, now and then with a sample over top.
fn window(r: &mut Random, depth: u32) -> Vec<u8> {
    let top = (1i64 << depth) - 1;
    let (base, slope, step, noise) = (r.below(top + 1), r.below(9) - 4, r.below(41) - 20, [0, 1, 3, top][r.below(4) as usize]);
    let mut out = Vec::new();
    for _ in 0..4 {
        for k in 0..18 {
            let v = base + slope * k + if k < 9 { 0 } else { step } + r.below(noise + 1);
            let v = v.clamp(0, top) + if r.below(4000) == 0 { 60000 - top } else { 0 };
            out.extend([(v % 256) as u8, (v / 256) as u8]);
        }
    }
    out
}

#[test]
fn as_the_plain_reading() {
    let mut r = Random(20_261_115);
    let (mut failures, mut checks, mut widths) = (0, 0, [0u32; 9]);
    for _ in 0..40_000 {
        let depth = [8, 10, 12, 12, 10, 8, 9][r.below(7) as usize];
        let mut ours = window(&mut r, if depth == 9 { 8 } else { depth });
        if r.below(500) == 0 {
            ours.pop();
        }
        let (q, side) = ([r.below(20), r.below(200), r.below(2050)][r.below(3) as usize] as u32, [r.below(60), r.below(841)][r.below(2) as usize] as u32);
        let pair = r.below(100).min(r.below(9)) as u32;
        let mut plain = ours.clone();
        let want = plain_segment(&mut plain, depth, pair, q, side);
        let got = segment(&mut ours, depth, pair, q, side);
        checks += 1;
        if got != want || ours != plain {
            failures += 1;
            println!("segment: depth {depth} pair {pair} q {q} side {side}: got {got:?}, want {want:?}");
        }
        if let Ok((w, _)) = want {
            widths[w] += 1;
        }
    }
    let table = |f: &dyn Fn(u32) -> u32| -> Vec<u8> { (0..352).flat_map(|k| f(k).to_le_bytes()).collect() };
    let good = table(&|k| if k == 0 { 64 } else { 40 * k });
    let both = |q: u32, side: u32| Ok(Thresholds { q, side });
    for (what, got, want) in [
        ("depth 9", thresholds(1, 1, 0, 0, 9, &good), Err(Reason::Depth)),
        ("short table", thresholds(1, 1, 0, 0, 8, &good[..1404]), Err(Reason::Steps)),
        ("entry 0 not 64", thresholds(1, 1, 0, 0, 8, &table(&|k| 40 * k)), Err(Reason::Steps)),
        ("delta 128", thresholds(1, 1, 128, 0, 8, &good), Err(Reason::Setting)),
        ("side at 295, depth 12", thresholds(391, 391, 0, 0, 12, &good), both((40 * 351 + 4) / 8 / 64, 839)),
        ("qindex 0 steps by 64", thresholds(0, 0, 0, 0, 8, &good), both(0, 0)),
        ("both deltas at their ends", thresholds(65535, 0, 127, -128, 10, &good), both(((40 * 303 + 4) / 8 / 64 + (40 * 303 + 4) / 8 / 64 + 1) / 2, 210)),
    ] {
        checks += 1;
        if got != want {
            failures += 1;
            println!("{what}: got {got:?}, want {want:?}");
        }
    }
    println!("Rust: {checks} checks, {failures} failures; widths 0..8 reached {widths:?} times");
    assert_eq!(failures, 0);
    assert!([0, 1, 2, 3, 4, 6, 8].iter().all(|&w| widths[w] > 0), "not every width was met");
}
