//! What the library's comparison counts.

use oracle::blocks::{Airframe, SLOTS, State};
use oracle::density::{APART_M, ENDS_M};
use oracle::limits;
use oracle::rows::TickRow;
use oracle::tick::Report;

const STRONG_MPS: f32 = 100.0;

/// The counts that are not 0, each with its number; they are numbered from `first` on.
fn by_number(counts: &[u64], first: usize) -> String {
    let met = (first..).zip(counts).filter(|(_, count)| **count > 0);
    let words = met.map(|(number, count)| format!("{number}: {count}"));
    words.collect::<Vec<String>>().join(", ")
}

/// The number of rows of the table that are not above this height.
fn row(height_m: f32) -> usize {
    let rows = oracle::density::table().iter();
    rows.filter(|row| row.height_m <= height_m).count()
}

#[derive(Default)]
pub struct Figures {
    pub flights: u64,
    pub damaged: u64,
    pub hand_made: u64,
    pub ticks: u64,
    /// How many ticks got each answer.
    pub answers: [u64; 11],
    /// How many of those in an unusable wind did, and of those in one over 100 m/s that is usable.
    pub in_unusable: [u64; 11],
    pub in_strong: [u64; 11],
    /// How many of those from a state with a thrust scale that is not 1 did, all of them within their
    /// limits; of those with one of 0, -0 or subnormal; and of those with one beyond its limits.
    pub tired: [u64; 11],
    pub at_edge: [u64; 11],
    pub out_of_scale: [u64; 11],
    /// How many of those with a thrust exponent that is not 2 did; and how many of the accepted among
    /// them have a motor that runs and whose share is 0.
    pub off_square: [u64; 11],
    pub faint: u64,
    /// How many of those of an airframe with lift numbers did; and how many of the accepted among them
    /// have a lift rotor that runs, a slot that drives a motor of either group, and a lift exponent
    /// that is not 2.
    pub lifted: [u64; 11],
    pub lifting: u64,
    pub shared: u64,
    pub lift_off_square: u64,
    /// How many of those without lift numbers did, from a state with a lift running value that is not
    /// 0, all of them within their limits; and of those from one beyond its limits.
    pub idle: [u64; 11],
    pub out_of_lift: [u64; 11],
    /// How many of those did that start within the table of densities and not at a row, at a row, 0
    /// apart, at height 0, and beyond the table's ends; and how many accepted ones end between other
    /// rows than they start.
    pub between_rows: [u64; 11],
    pub at_row: [u64; 11],
    pub at_zero: [u64; 11],
    pub beyond_table: [u64; 11],
    pub crossing: u64,
    pub runs: u64,
    pub run_ticks: u64,
    pub pairs: u64,
    pub blocks: u64,
    pub other_lengths: u64,
    pub differing: u64,
}

impl Figures {
    pub fn inputs(&self) -> u64 {
        self.flights + self.damaged + self.hand_made
    }

    /// Counts a tick of an airframe, where it was read, from a state at this height, which hands back
    /// `next`: there its thrust scales are, and the running values that its thrust is by.
    pub fn ticked(
        &mut self,
        report: &Report,
        airframe: Option<&Airframe>,
        height_m: f32,
        next: &State,
        tick: &TickRow,
    ) {
        let answer = usize::from(report.answer);
        let wind = [tick[1], tick[2], tick[3]];
        self.ticks += 1;
        self.answers[answer] += 1;
        if !limits::wind(wind) {
            self.in_unusable[answer] += 1;
        } else if wind.iter().any(|x| x.abs() > STRONG_MPS) {
            self.in_strong[answer] += 1;
        }
        self.scaled(answer, &next.thrust_scale);
        self.high(answer, height_m, next.height_m());
        if let Some(airframe) = airframe {
            self.powered(answer, airframe.at(36), next);
            self.lift(answer, airframe, next);
        }
    }

    fn high(&mut self, answer: usize, height_m: f32, next_m: f32) {
        if height_m.is_nan() {
            return;
        }
        let counts = if height_m == 0.0 {
            &mut self.at_zero
        } else if !limits::within(height_m, ENDS_M) {
            &mut self.beyond_table
        } else if height_m % APART_M == 0.0 {
            &mut self.at_row
        } else {
            &mut self.between_rows
        };
        counts[answer] += 1;
        self.crossing += u64::from(row(height_m) != row(next_m));
    }

    fn powered(&mut self, answer: usize, exponent: f32, next: &State) {
        if exponent != 2.0 {
            self.off_square[answer] += 1;
            let faint = |v: &f32| *v > 0.0 && libm::powf(*v, exponent) == 0.0;
            self.faint += u64::from(answer == 0 && next.motors.iter().any(faint));
        }
    }

    fn lift(&mut self, answer: usize, airframe: &Airframe, next: &State) {
        let values = next.lift_motors;
        if !values.iter().all(|x| limits::within(*x, limits::MOTOR)) {
            self.out_of_lift[answer] += 1;
        } else if airframe.lift.is_none() && values.iter().any(|x| *x != 0.0) {
            self.idle[answer] += 1;
        }
        let Some(numbers) = airframe.lift else {
            return;
        };
        self.lifted[answer] += 1;
        if answer == 0 {
            let mut slots = airframe.used.iter().zip(airframe.lift_used);
            self.lifting += u64::from(values.iter().any(|x| *x > 0.0));
            self.shared += u64::from(slots.any(|(forward, lift)| *forward && lift));
            self.lift_off_square += u64::from(numbers[1] != 2.0);
        }
    }

    fn scaled(&mut self, answer: usize, scales: &[f32; SLOTS]) {
        if !scales.iter().all(|x| limits::within(*x, limits::SCALE)) {
            self.out_of_scale[answer] += 1;
        } else if scales.iter().any(|x| *x != 1.0) {
            self.tired[answer] += 1;
            let edge = scales.iter().any(|x| *x < f32::MIN_POSITIVE);
            self.at_edge[answer] += u64::from(edge);
        }
    }

    pub fn print(&self) {
        println!(
            "library: {} inputs: {} flights, {} damaged, {} hand-made airframes",
            self.inputs(),
            self.flights,
            self.damaged,
            self.hand_made
        );
        println!(
            "library: {} ticks, {} accepted; refused by number {}",
            self.ticks,
            self.answers[0],
            by_number(&self.answers[1..], 1)
        );
        println!(
            "library: in an unusable wind, by number {}; in a usable one over {STRONG_MPS} m/s, {}",
            by_number(&self.in_unusable, 0),
            by_number(&self.in_strong, 0)
        );
        println!(
            "library: with a thrust scale that is not 1, by number {}; with one of 0, -0 or subnormal, {}; \
             with one beyond its limits, {}",
            by_number(&self.tired, 0),
            by_number(&self.at_edge, 0),
            by_number(&self.out_of_scale, 0)
        );
        println!(
            "library: with a thrust exponent that is not 2, by number {}; accepted with a motor that runs \
             and has a share of 0, {}",
            by_number(&self.off_square, 0),
            self.faint
        );
        println!(
            "library: with lift numbers, by number {}; accepted with a lift rotor that runs, {}, with a \
             slot that drives both groups, {}, with a lift exponent that is not 2, {}",
            by_number(&self.lifted, 0),
            self.lifting,
            self.shared,
            self.lift_off_square
        );
        println!(
            "library: without lift numbers and with a lift running value that is not 0, by number {}; with \
             one beyond its limits, {}",
            by_number(&self.idle, 0),
            by_number(&self.out_of_lift, 0)
        );
        println!(
            "library: from a height between two rows of the table of densities, by number {}; from a row, \
             {}; from 0, {}; from beyond the table, {}; accepted over a row, {}",
            by_number(&self.between_rows, 0),
            by_number(&self.at_row, 0),
            by_number(&self.at_zero, 0),
            by_number(&self.beyond_table, 0),
            self.crossing
        );
        println!(
            "library: {} runs and {} mirrored pairs of {} ticks, {} blocks, {} rows of another length",
            self.runs, self.pairs, self.run_ticks, self.blocks, self.other_lengths
        );
        println!(
            "library: {} inputs, {} differ",
            self.inputs(),
            self.differing
        );
    }
}
