//! Processor times of alternating repetitions.

use crate::cpu_clock;
use crate::implementation::Implementation;
use crate::workload::Workload;
use std::hint::black_box;
use std::time::Duration;

/// How often and how long.
#[derive(Debug, Clone, Copy)]
pub struct Effort {
    pub repetitions: usize,
    /// A repetition runs the workload as often as it takes to last this long.
    pub least: Duration,
}

/// Nanoseconds per event over the repetitions. Without events: per run.
#[derive(Debug, Clone)]
pub struct Times {
    sorted: Vec<f64>,
}

impl Times {
    fn new(mut times: Vec<f64>) -> Times {
        times.sort_by(f64::total_cmp);
        Times { sorted: times }
    }

    fn quantile(&self, share: f64) -> f64 {
        let at = share * (self.sorted.len() - 1) as f64;
        let (low, high) = (self.sorted[at.floor() as usize], self.sorted[at.ceil() as usize]);
        low + (high - low) * at.fract()
    }

    pub fn median(&self) -> f64 {
        self.quantile(0.5)
    }

    /// How far apart the middle half of the repetitions lies, as a share of the median.
    pub fn spread(&self) -> f64 {
        (self.quantile(0.75) - self.quantile(0.25)) / self.median()
    }

    pub fn least(&self) -> f64 {
        self.quantile(0.0)
    }

    pub fn greatest(&self) -> f64 {
        self.quantile(1.0)
    }
}

/// Times the implementations in turn, A B A B and so on, so that a slow spell of the machine meets all of them.
pub fn measure(workload: &Workload, implementations: &[Implementation], effort: Effort) -> Vec<Times> {
    let mut answers = workload.room();
    let runs: Vec<u32> =
        implementations.iter().map(|one| runs_for(workload, *one, effort.least, &mut answers)).collect();
    let mut times = vec![Vec::with_capacity(effort.repetitions); implementations.len()];
    for _ in 0..effort.repetitions {
        for (index, implementation) in implementations.iter().enumerate() {
            let passed = time(workload, *implementation, runs[index], &mut answers);
            let events = workload.events.max(1) as f64 * f64::from(runs[index]);
            times[index].push(passed.as_secs_f64() * 1e9 / events);
        }
    }
    times.into_iter().map(Times::new).collect()
}

/// How many runs last at least this long. The runs made here also warm the caches.
fn runs_for(workload: &Workload, implementation: Implementation, least: Duration, answers: &mut [u8]) -> u32 {
    let mut runs = 1;
    loop {
        let passed = time(workload, implementation, runs, answers);
        if passed >= least {
            return runs;
        }
        let factor = least.as_secs_f64() / passed.as_secs_f64().max(1e-9);
        runs = (f64::from(runs) * factor.clamp(1.1, 10.0)).ceil() as u32;
    }
}

fn time(workload: &Workload, implementation: Implementation, runs: u32, answers: &mut [u8]) -> Duration {
    let start = cpu_clock::now();
    repeat(workload, implementation, runs, answers);
    cpu_clock::now() - start
}

/// Runs a workload so many times over. The results count as used, so that no run is left out.
pub fn repeat(workload: &Workload, implementation: Implementation, runs: u32, answers: &mut [u8]) {
    for _ in 0..runs {
        black_box(black_box(workload).run(implementation, answers));
        black_box(&mut *answers);
    }
}
