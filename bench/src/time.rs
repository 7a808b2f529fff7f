//! Taking turns.

use std::time::Duration;

/// Goes through its inputs that often, and tells how long it took.
pub type Timed = Box<dyn FnMut(u32) -> Duration>;

/// One side of a row, and its time in each round: seconds for going through the inputs once.
pub struct Side {
    timed: Timed,
    /// How often it goes through the inputs for one time.
    often: u32,
    rounds: Vec<f64>,
}

const LEAST: Duration = Duration::from_millis(20);

impl Side {
    pub fn new(mut timed: Timed) -> Side {
        let mut often = 1;
        while timed(often) < LEAST {
            often *= 2;
        }

        Side {
            timed,
            often,
            rounds: Vec::new(),
        }
    }

    pub fn time(&mut self) {
        let time = (self.timed)(self.often);
        self.rounds.push(time.as_secs_f64() / self.often as f64);
    }

    pub fn best(&self) -> f64 {
        self.rounds.iter().copied().fold(f64::INFINITY, f64::min)
    }

    pub fn median(&self) -> f64 {
        let mut sorted = self.rounds.clone();
        sorted.sort_by(f64::total_cmp);

        sorted[sorted.len() / 2]
    }
}
