//! A whole run: the leaves, the directed sessions, random sessions and damaged records, and its summary.

use crate::beyond;
use crate::directed::{CASES, Stage};
use crate::lines;
use crate::pair::Compared;
use crate::plant::Plant;
use crate::players::{self, Played, Style};
use crate::records::{Reopening, any_opening, damaged, made_up};
use crate::report::{Counts, Difference};
use crate::rng::Rng;
use std::time::{Duration, Instant};

/// How much is run: a run goes on until each of these is reached.
#[derive(Debug, Clone, Copy)]
pub struct Form {
    name: &'static str,
    calls: u64,
    reopenings: u64,
    /// A run ends after so many differences.
    enough: usize,
}

impl Form {
    /// For the gate.
    pub const QUICK: Self = Self { name: "quick", calls: 100_000, reopenings: 10_000, enough: 5 };
    /// The whole comparison.
    pub const FULL: Self = Self { name: "full", calls: 2_000_000, reopenings: 200_000, enough: 5 };
    /// A sample for the stored answers.
    pub const STORED: Self = Self { name: "stored", calls: 9000, reopenings: 500, enough: 1 };
    /// To find a planted error: less is run, and the first difference is enough.
    pub const PLANTED: Self = Self { name: "planted", calls: 8000, reopenings: 800, enough: 1 };
}

/// A run.
pub struct Run {
    form: Form,
    seed: u64,
    plant: Plant,
    /// Prints progress and differences, and makes their inputs small.
    talks: bool,
    counts: Counts,
    differences: Vec<Difference>,
    started: Instant,
    said: Instant,
}

impl Run {
    /// A run that this seed names.
    pub fn new(form: Form, seed: u64, plant: Plant, talks: bool) -> Self {
        let now = Instant::now();
        let (counts, differences) = (Counts::default(), Vec::new());
        Self { form, seed, plant, talks, counts, differences, started: now, said: now }
    }

    /// What differed first, if anything did.
    pub fn first(&self) -> Option<&str> {
        self.differences.first().map(|difference| difference.what.as_str())
    }

    fn enough(&self) -> bool {
        self.differences.len() >= self.form.enough
    }

    fn differs(&mut self, difference: impl FnOnce() -> Difference) {
        let difference = if self.talks {
            let difference = difference();
            println!("difference: {}\n{}\n", difference.what, difference.input);
            difference
        } else {
            Difference { what: "a difference".to_owned(), input: String::new() }
        };
        self.differences.push(difference);
    }

    fn held(&mut self, name: &str, compared: Compared) {
        if let Err(what) = compared {
            if self.talks {
                println!("difference: {what}\n{name}\n");
            }
            self.differences.push(Difference { what, input: name.to_owned() });
        }
    }

    /// The leaves and the directed sessions.
    pub fn directed(&mut self) {
        let leaves = beyond::leaves(&mut self.counts);
        self.held("the leaves", leaves);
        let lines = lines::directed(self.plant, &mut self.counts);
        self.held("puzzle lines", lines);
        for &(name, case) in CASES {
            let compared = case(&mut Stage::new(self.plant, &mut self.counts));
            self.held(&format!("directed session: {name}"), compared);
            if self.enough() {
                return;
            }
        }
    }

    /// Random sessions, each with damaged copies of its record, and openings and records that nobody played.
    pub fn random(&mut self) {
        let mut number = 0;
        while self.counts.calls < self.form.calls || self.counts.reopenings < self.form.reopenings {
            if self.enough() {
                return;
            }
            let mut rng = Rng::new(self.seed).branch(1, number);
            // Of 32 sessions one is a marathon; the other styles come in turn.
            let turn = usize::try_from(number % 7).unwrap_or(0);
            let style = if number % 32 == 31 { Style::Marathon } else { Style::ALL[turn] };
            match players::play(style, &mut rng, self.plant, &mut self.counts) {
                Ok(played) => self.records(&played, &mut rng),
                Err(script) => {
                    let plant = self.plant;
                    self.differs(|| script.difference(plant));
                }
            }
            number += 1;
            self.progress(number);
        }
    }

    /// What is done with the record of a session. Reopenings keep step with calls.
    fn records(&mut self, played: &Played, rng: &mut Rng) {
        let beyond = beyond::damage(&played.record, &played.solution, rng, &mut self.counts);
        self.held(&format!("damage to the board of record {:?}", played.record), beyond);
        let lines = lines::session(&played.record, &played.solution, rng, self.plant, &mut self.counts);
        self.held(&format!("puzzle lines of record {:?}", played.record), lines);
        self.reopen(&Reopening { record: played.record.clone(), solution: played.solution });
        for _ in 0..4 {
            self.open(rng);
        }
        let due = self.counts.calls * self.form.reopenings / self.form.calls;
        let mut copies = if played.record.len() > 1500 { 12 } else { 200 };
        while self.counts.reopenings < due && copies > 0 && !self.enough() {
            copies -= 1;
            let damage = rng.percent(70);
            self.reopen(&if damage { damaged(&played.record, &played.solution, rng) } else { made_up(rng) });
        }
    }

    fn reopen(&mut self, reopening: &Reopening) {
        let plant = self.plant;
        if reopening.run(plant, &mut self.counts).is_err() {
            self.differs(|| reopening.difference(plant));
        }
    }

    fn open(&mut self, rng: &mut Rng) {
        let (opening, plant) = (any_opening(rng), self.plant);
        if opening.run(plant, &mut self.counts).is_err() {
            self.differs(|| opening.difference(plant));
        }
    }

    fn progress(&mut self, sessions: u64) {
        if self.talks && self.said.elapsed() > Duration::from_secs(10) {
            self.said = Instant::now();
            let (seconds, counts) = (self.started.elapsed().as_secs(), &self.counts);
            println!("{seconds} s: {sessions} sessions, {} calls, {} reopenings", counts.calls, counts.reopenings);
        }
    }

    /// Prints what was compared; true where nothing differs and every number occurred.
    pub fn summary(&self) -> bool {
        println!("comparison with the original, {} form, seed {}:", self.form.name, self.seed);
        for line in self.counts.lines() {
            println!("  {line}");
        }
        let missing = self.counts.missing();
        for (number, inner) in &missing {
            println!("  never occurred: number {number}, inner {inner}");
        }
        println!("  {} s", self.started.elapsed().as_secs());
        match self.differences.len() {
            0 => println!("no difference"),
            count => println!("{count} differences"),
        }
        self.differences.is_empty() && missing.is_empty()
    }
}

/// Plants each error, and sees whether random sessions and directed ones find it. True where both find each.
pub fn find_planted(seed: u64) -> bool {
    let mut missed = 0;
    for (name, plant) in Plant::ALL {
        let mut random = Run::new(Form::PLANTED, seed, plant, false);
        random.random();
        let mut directed = Run::new(Form::PLANTED, seed, plant, false);
        directed.directed();
        for (run, which) in [(&random, "random"), (&directed, "directed")] {
            if run.first().is_none() {
                println!("planted {name}: not found by {which} sessions");
            }
        }
        missed += usize::from(random.first().is_none() || directed.first().is_none());
    }
    println!(
        "{} of {} planted errors found, by random sessions and by directed ones",
        Plant::ALL.len() - missed,
        Plant::ALL.len()
    );
    missed == 0
}

#[cfg(test)]
mod tests {
    use super::{Form, Run, find_planted};
    use crate::plant::Plant;

    #[test]
    fn nothing_planted_nothing_found() {
        let mut run = Run::new(Form::PLANTED, 3, Plant::Nothing, false);
        run.directed();
        run.random();
        assert_eq!(run.first(), None);
    }

    #[test]
    fn every_planted_error_is_found() {
        assert!(find_planted(3));
    }
}
