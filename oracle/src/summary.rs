//! What a run reached, for standard error.

use crate::made::Made;
use crate::rust::deblock::Counts;

#[derive(Default)]
pub struct Summary {
    cases: u64,
    accepted: u64,
    changed: u64,
    refused: [u64; 21],
    widths: [u64; 9],
    counts: Counts,
    still: u64,
    limited: u64,
    /// Of the cases with tile starts: all, the accepted ones, and those whose planes would end otherwise without them.
    starts: [u64; 3],
    /// Of the cases with kept cells: likewise.
    keep: [u64; 3],
}

impl Summary {
    pub fn count(&mut self, made: &Made) {
        self.cases += 1;
        self.changed += made.changed as u64;
        match made.refusal {
            None => self.accepted += 1,
            Some(r) => self.refused[r.no as usize] += 1,
        }
        if let Some(w) = made.width {
            self.widths[w] += 1;
        }
        for (sums, said) in [(&mut self.starts, made.starts), (&mut self.keep, made.keep)] {
            let counts = said.map_or([false; 3], |matter| [true, made.refusal.is_none(), matter]);
            (0..3).for_each(|k| sums[k] += counts[k] as u64);
        }
        if let Some(n) = made.counts {
            self.counts.add(n);
            self.still += (n.stored > 0 && n.changed == 0) as u64;
            self.limited += (n.limited > 0) as u64;
        }
    }

    pub fn print(&self, part: &str, seed: u64) {
        eprintln!("{part}, seed {seed}: {} cases, {} accepted, {} changed what was lent", self.cases, self.accepted, self.changed);
        for (no, n) in self.refused.iter().enumerate() {
            if *n > 0 {
                eprintln!("  refused by {no}: {n}");
            }
        }
        if self.counts.stored > 0 {
            eprintln!("  stored {}, changed {}; stored but changed nothing: {} cases; limited to the range: {} samples in {} cases", self.counts.stored, self.counts.changed, self.still, self.counts.limited, self.limited);
        }
        for (what, [all, accepted, telling]) in [("tile starts", self.starts), ("kept cells", self.keep)] {
            if all > 0 {
                eprintln!("  with {what}: {all} cases, {accepted} accepted; other samples than without: {telling}");
            }
        }
        for (w, n) in self.widths.iter().enumerate() {
            if *n > 0 {
                eprintln!("  width {w}: {n}");
            }
        }
    }

    /// True where a width was met that document 01 never gives.
    pub fn impossible(&self) -> bool {
        self.widths[5] > 0 || self.widths[7] > 0
    }
}
