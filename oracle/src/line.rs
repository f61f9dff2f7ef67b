//! One case: its numbers, and how they are written, decimal in a line with single spaces between them.

use std::io::Write;

#[derive(Default)]
pub struct Line {
    numbers: Vec<i64>,
}

impl Line {
    /// A line that begins with its kind.
    pub fn new(kind: u64) -> Line {
        Line { numbers: vec![kind as i64] }
    }

    pub fn signed(&mut self, numbers: &[i64]) -> &mut Line {
        self.numbers.extend_from_slice(numbers);
        self
    }

    pub fn unsigned(&mut self, numbers: &[u64]) -> &mut Line {
        self.numbers.extend(numbers.iter().map(|&n| n as i64));
        self
    }

    /// The entries alone.
    pub fn entries<T: Copy + Into<i64>>(&mut self, list: &[T]) -> &mut Line {
        self.numbers.extend(list.iter().map(|&n| n.into()));
        self
    }

    /// The length, then the entries.
    pub fn list<T: Copy + Into<i64>>(&mut self, list: &[T]) -> &mut Line {
        self.unsigned(&[list.len() as u64]);
        self.entries(list)
    }

    pub fn numbers(&self) -> &[i64] {
        &self.numbers
    }

    pub fn text(&self) -> Vec<u8> {
        let mut text = Vec::new();
        for (k, n) in self.numbers().iter().enumerate() {
            let space = if k == 0 { "" } else { " " };
            write!(text, "{space}{n}").expect("memory takes every byte");
        }
        text
    }
}
