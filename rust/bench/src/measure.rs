//! Times of the calls of both, interleaved.

use crate::volume::{Volume, ACCEPTED, REFUSED, SCRATCH};
use std::hint::black_box;
use std::time::{Duration, Instant};
use zanthupra_ours as ours;
use zanthupra_twin::{self as twin, constants::Status, OpenReply, OpenRequest};

pub const CALLS: [&str; 5] = ["open", "refused open", "close", "audit", "deleting close"];

/// A figure for each of `CALLS`.
type Figures<T> = [T; CALLS.len()];

/// How often each call is made in a round, how many rounds a pass has, and how many passes
/// are made over all volumes.
#[derive(Clone, Copy)]
pub struct Effort {
    pub repeats: u32,
    pub rounds: usize,
    pub passes: usize,
}

/// Medians in microseconds of ours and of the twin.
#[derive(Clone, Copy)]
pub struct Times {
    pub ours: Figures<f64>,
    pub twin: Figures<f64>,
}

/// The calls of one side.
struct Side {
    open: fn(&mut [u8], &OpenRequest, &[u8]) -> OpenReply,
    close: fn(&mut [u8], u64) -> u32,
    audit: fn(&[u8]) -> bool,
}

const OURS: Side =
    Side { open: ours::open, close: ours::close, audit: |tables| ours::audit(tables) == 1 };
const TWIN: Side = Side { open: twin::open, close: twin::close, audit: twin::audit };
const SIDES: [&Side; 2] = [&OURS, &TWIN];

/// One pass: rounds of one side and of the other take turns, and so does which of them goes
/// first. The first round warms up and doesn't count.
fn in_turns(rounds: usize, mut one_round: impl FnMut(usize, bool)) {
    for round in 0..=rounds {
        for turn in 0..2 {
            one_round((round + turn) % 2, round > 0);
        }
    }
}

/// A volume for each side, with the times measured on it so far.
pub struct Measured {
    path: Vec<u8>,
    scratch: Vec<u8>,
    tables: [Vec<u8>; 2],
    samples: [Figures<Vec<f64>>; 2],
}

impl Measured {
    pub fn new(volume: Volume) -> Self {
        Measured {
            path: volume.path,
            scratch: volume.scratch,
            tables: [volume.tables.clone(), volume.tables],
            samples: Default::default(),
        }
    }

    pub fn tables(&self) -> &[u8] {
        &self.tables[0]
    }

    pub fn pass(&mut self, effort: Effort) {
        in_turns(effort.rounds, |side, counts| {
            let paths = [&self.path[..], &self.scratch];
            let times = one_round(SIDES[side], &mut self.tables[side], paths, effort.repeats);
            if counts {
                for (sample, time) in self.samples[side].iter_mut().zip(times) {
                    sample.push(time);
                }
            }
        });
    }

    pub fn medians(&self) -> Times {
        let [ours, twin] = self.samples.clone().map(|side| side.map(median));
        Times { ours, twin }
    }
}

/// Tables on which the audit alone is measured, with the times of both so far.
pub struct Audited {
    tables: Vec<u8>,
    samples: [Vec<f64>; 2],
}

impl Audited {
    pub fn new(tables: Vec<u8>) -> Self {
        Audited { tables, samples: Default::default() }
    }

    pub fn pass(&mut self, effort: Effort) {
        in_turns(effort.rounds, |side, counts| {
            let start = Instant::now();
            for _ in 0..effort.repeats {
                assert!((SIDES[side].audit)(black_box(&self.tables)));
            }
            if counts {
                self.samples[side].push(mean(start.elapsed(), effort.repeats));
            }
        });
    }

    /// Medians in microseconds of ours and of the twin.
    pub fn medians(&self) -> [f64; 2] {
        self.samples.clone().map(median)
    }
}

/// Mean times of one round in microseconds, on the measured file and on the one that is made
/// and deleted. Each accepted open is closed again.
fn one_round(
    side: &Side,
    tables: &mut [u8],
    [path, scratch]: [&[u8]; 2],
    repeats: u32,
) -> Figures<f64> {
    let mut times = [Duration::ZERO; CALLS.len()];
    for _ in 0..repeats {
        let start = Instant::now();
        let reply = (side.open)(black_box(tables), black_box(&ACCEPTED), black_box(path));
        times[0] += start.elapsed();
        assert_eq!(reply.status, Status::Success.code());

        let start = Instant::now();
        let refused = (side.open)(black_box(tables), black_box(&REFUSED), black_box(path));
        times[1] += start.elapsed();
        assert_eq!(refused.status, Status::SharingViolation.code());

        let start = Instant::now();
        let status = (side.close)(black_box(tables), black_box(reply.handle));
        times[2] += start.elapsed();
        assert_eq!(status, Status::Success.code());

        let start = Instant::now();
        let sound = (side.audit)(black_box(tables));
        times[3] += start.elapsed();
        assert!(sound);

        let reply = (side.open)(tables, &SCRATCH, scratch);
        assert_eq!(reply.status, Status::Success.code());
        let start = Instant::now();
        let status = (side.close)(black_box(tables), black_box(reply.handle));
        times[4] += start.elapsed();
        assert_eq!(status, Status::Success.code());
    }
    times.map(|time| mean(time, repeats))
}

/// The mean time of one call in microseconds.
fn mean(time: Duration, calls: u32) -> f64 {
    time.as_secs_f64() * 1e6 / f64::from(calls)
}

fn median(mut sample: Vec<f64>) -> f64 {
    sample.sort_by(f64::total_cmp);
    let middle = sample.len() / 2;
    if sample.len() % 2 == 1 {
        sample[middle]
    } else {
        (sample[middle - 1] + sample[middle]) / 2.0
    }
}
