//! Times of several sides, taken in turn, and ratios of them over runs.

use std::time::Instant;

/// How often each ratio is taken; its median and spread are printed.
pub const RUNS: usize = 7;

/// The least time of a side within a run is over this many repetitions.
const REPETITIONS: usize = 9;

/// The seconds that `work` takes.
pub fn seconds(work: impl FnOnce()) -> f64 {
    let start = Instant::now();
    work();
    start.elapsed().as_secs_f64()
}

/// One run: the least seconds of each side, the sides taken in turn.
pub fn side_by_side<const SIDES: usize>(sides: &mut [&mut dyn FnMut() -> f64; SIDES]) -> [f64; SIDES] {
    let mut least = [f64::INFINITY; SIDES];
    for _ in 0..REPETITIONS {
        for (least, side) in least.iter_mut().zip(sides.iter_mut()) {
            *least = least.min(side());
        }
    }
    least
}

pub fn median(values: &[f64]) -> f64 {
    let mut sorted = values.to_vec();
    sorted.sort_by(f64::total_cmp);
    sorted[sorted.len() / 2]
}

/// A ratio over the runs, with its limit.
pub struct Ratio {
    pub name: String,
    pub limit: f64,
    pub values: Vec<f64>,
}

impl Ratio {
    pub fn new(name: String, limit: f64) -> Ratio {
        Ratio { name, limit, values: Vec::new() }
    }

    pub fn print(&self) {
        let least = self.values.iter().copied().fold(f64::INFINITY, f64::min);
        let most = self.values.iter().copied().fold(0.0, f64::max);
        println!("ratio {} {:.3} at most {}", self.name, median(&self.values), self.limit);
        if self.values.len() == 1 {
            println!("  counted in instructions, the same in every run");
            return;
        }
        println!("  spread {least:.3} to {most:.3} over {} runs", self.values.len());
    }
}
