//! What was found, by row, call and depth.

use super::{Call, Work, INSTRUCTIONS};
use crate::subject::OPENSSL;
use crate::subject::PROVED;

/// The times of each row, place after place, and of one block by each yardstick in turn with them.
#[derive(Default)]
pub struct Times {
    rows: Vec<Vec<f64>>,
    blocks: Vec<Vec<f64>>,
}

impl Times {
    /// How many places have their times.
    pub fn places(&self) -> usize {
        self.blocks.len()
    }

    /// Adds the times of a group: for each place those of every row.
    pub fn add(&mut self, rows: usize, times: &[f64], blocks: &[f64]) {
        self.rows.resize(rows, Vec::new());
        for place in times.chunks(rows) {
            for (row, time) in self.rows.iter_mut().zip(place) {
                row.push(*time);
            }
            self.blocks.push(blocks.to_vec());
        }
    }
}

/// The times under their names.
pub struct Results {
    pub names: Vec<&'static str>,
    yardsticks: Vec<&'static str>,
    works: Vec<Work>,
    times: Times,
}

impl Results {
    /// Takes the times of those rows, yardsticks and works.
    pub fn new(
        names: Vec<&'static str>,
        yardsticks: Vec<&'static str>,
        works: Vec<Work>,
        times: Times,
    ) -> Self {
        Results {
            names,
            yardsticks,
            works,
            times,
        }
    }

    /// Makes nanoseconds of steps that last so long.
    pub fn scale(&mut self, pace: f64) {
        let Times { rows, blocks } = &mut self.times;
        for time in rows.iter_mut().chain(blocks).flatten() {
            *time *= pace;
        }
    }

    /// Where a work is in the list.
    fn place(&self, call: Call, depth: u32) -> Option<usize> {
        let work = Work { call, depth };
        self.works.iter().position(|&known| known == work)
    }

    /// The nanoseconds of a row, if it was measured.
    pub fn time(&self, name: &str, call: Call, depth: u32) -> Option<f64> {
        let row = self.names.iter().position(|&known| known == name)?;
        Some(self.times.rows[row][self.place(call, depth)?])
    }

    /// The nanoseconds of the proved code.
    pub fn proved(&self, call: Call, depth: u32) -> f64 {
        let time = self.time(PROVED, call, depth);
        time.expect("the proved code is always there")
    }

    /// The least and the most nanoseconds of one block by a yardstick.
    pub fn block(&self, yardstick: &str) -> Option<(f64, f64)> {
        let known = self
            .yardsticks
            .iter()
            .position(|&known| known == yardstick)?;
        let all = || self.times.blocks.iter().map(|blocks| blocks[known]);
        Some((all().reduce(f64::min)?, all().reduce(f64::max)?))
    }

    /// The definition's AES calls, each at the cost of a yardstick's block.
    pub fn at_block_of(&self, yardstick: &str, call: Call, depth: u32) -> Option<f64> {
        let known = self
            .yardsticks
            .iter()
            .position(|&known| known == yardstick)?;
        let block = self.times.blocks[self.place(call, depth)?][known];
        Some(block * Work { call, depth }.aes_calls() as f64)
    }

    /// The definition's AES calls at the cost of OpenSSL's block, or of the AES instructions alone where it is missing.
    pub fn limit(&self, call: Call, depth: u32) -> Option<f64> {
        self.at_block_of(OPENSSL, call, depth)
            .or_else(|| self.at_instructions(call, depth))
    }

    /// The same with the CPU's AES instructions alone.
    pub fn at_instructions(&self, call: Call, depth: u32) -> Option<f64> {
        self.at_block_of(INSTRUCTIONS, call, depth)
    }
}
