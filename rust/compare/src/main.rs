//! `compare [CALLS] [SEED]`: random calls through libzanthupra.a and through the twin.
//! After each call the replies and every byte of the tables are compared. Ends with one
//! line of counts, or with the calls that lead to a difference and exit status 1.

mod call;
mod damage;
mod deleted;
mod mix;
mod pair;
mod rng;

use call::{hex, status_name, Call, Reply, CALL_NAMES};
use deleted::Deleted;
use mix::{Handles, Mood, MOODS};
use pair::{place, Pair};
use rng::Rng;
use std::collections::BTreeMap;
use std::env;
use std::process::ExitCode;
use zanthupra_twin::constants::Status;
use zanthupra_twin::layout::{Tables, TABLES_SIZE};

const DEFAULT_CALLS: u64 = 100_000;
const DEFAULT_SEED: u64 = 14;

/// What happened to the volume since its format.
enum Event {
    Call(Call, Reply),
    /// Bytes put into the tables: place and new bytes.
    Put(Vec<(usize, Vec<u8>)>),
}

#[derive(Default)]
struct Counts {
    calls: u64,
    by_call: [u64; CALL_NAMES.len()],
    by_status: BTreeMap<u32, u64>,
    deleted: Deleted,
    /// Opens with a control unit in the path: accepted, and refused with OBJECT_NAME_INVALID.
    control_accepted: u64,
    control_invalid: u64,
    damaged_sound: u64,
    damaged_unsound: u64,
}

impl Counts {
    fn take(&mut self, call: &Call, reply: &Reply) {
        self.calls += 1;
        self.by_call[call.number()] += 1;
        if !matches!(call, Call::Audit) {
            *self.by_status.entry(reply.status).or_default() += 1;
        }
        if call.has_control_unit() {
            self.control_accepted += u64::from(reply.status == 0);
            self.control_invalid += u64::from(reply.status == Status::ObjectNameInvalid.code());
        }
    }

    fn missing(&self) -> Vec<String> {
        Status::ALL
            .into_iter()
            .filter(|status| !self.by_status.contains_key(&status.code()))
            .map(|status| format!("{status:?}"))
            .chain(self.deleted.missing())
            .chain((self.control_accepted == 0).then(|| "control units accepted".into()))
            .chain((self.control_invalid == 0).then(|| "control units refused".into()))
            .collect()
    }

    fn summary(&self, seed: u64) -> String {
        let calls =
            CALL_NAMES.iter().zip(self.by_call).map(|(name, count)| format!("{name} {count}"));
        let statuses = self
            .by_status
            .iter()
            .map(|(status, count)| format!("{} {count}", status_name(*status)));
        format!(
            "compare: {} calls, seed {seed}, no difference; {}; delete on close: {}; \
             control units: {} accepted, {} refused; damaged tables: {} sound, {} not; {}",
            self.calls,
            calls.collect::<Vec<_>>().join(", "),
            self.deleted.summary(),
            self.control_accepted,
            self.control_invalid,
            self.damaged_sound,
            self.damaged_unsound,
            statuses.collect::<Vec<_>>().join(", "),
        )
    }
}

/// The volume under test and how it came to be as it is.
struct Comparison {
    rng: Rng,
    pair: Pair,
    mood: Mood,
    steps_left: usize,
    handles: Handles,
    history: Vec<Event>,
    counts: Counts,
}

impl Comparison {
    fn new(seed: u64) -> Self {
        Comparison {
            rng: Rng::new(seed),
            pair: Pair::new(&vec![0xEE; TABLES_SIZE]),
            mood: Mood::Mixed,
            steps_left: 0,
            handles: Handles::default(),
            history: Vec::new(),
            counts: Counts::default(),
        }
    }

    /// Formats until it succeeds, then makes some hundred calls on that volume.
    fn one_volume(&mut self, until: u64) -> Result<(), String> {
        loop {
            let format = mix::format(&mut self.rng);
            if self.run(format)?.status == 0 {
                break;
            }
        }
        self.mood = self.rng.weighted(&MOODS);
        self.steps_left = match self.mood {
            Mood::Mixed => 50 + self.rng.below(800),
            _ => 500 + self.rng.below(700),
        };
        if self.rng.chance(85) {
            for call in mix::first_calls(&mut self.rng) {
                self.run(call)?;
            }
        }
        while self.steps_left > 0 && self.counts.calls < until {
            self.steps_left -= 1;
            if self.rng.chance(12) {
                self.try_damage()?;
            } else {
                let call = mix::call(&mut self.rng, self.mood, &self.handles);
                self.run(call)?;
            }
        }
        Ok(())
    }

    /// One call on the volume.
    fn run(&mut self, call: Call) -> Result<Reply, String> {
        let reply = self.pair.run(&call).map_err(|what| format!("{call}\n{what}"))?;
        self.counts.take(&call, &reply);
        if reply.status == 0 {
            self.follow(&call, &reply);
        }
        self.history.push(Event::Call(call, reply));
        Ok(reply)
    }

    /// Keeps the handles, counts what a close deleted, and forgets what was before a format.
    fn follow(&mut self, call: &Call, reply: &Reply) {
        match call {
            Call::Format { .. } => {
                self.history.clear();
                self.handles = Handles::default();
            }
            Call::Open { .. } => self.handles.live.push(reply.handle),
            Call::Close { handle } => {
                self.counts.deleted.take(self.pair.before(), self.pair.tables());
                self.handles.live.retain(|live| live != handle);
                self.handles.stale.push(*handle);
            }
            _ => {}
        }
    }

    /// Calls on damaged tables. The volume then goes on from the undamaged copy, or, where
    /// the damage left sound tables, now and then from those.
    fn try_damage(&mut self) -> Result<(), String> {
        let tables = damage::damaged(&mut self.rng, self.pair.tables());
        let mut pair = Pair::new(&tables);
        let mut calls = vec![Call::Audit];
        for _ in 0..1 + self.rng.below(3) {
            calls.push(mix::call(&mut self.rng, self.mood, &self.handles));
        }
        if self.rng.chance(10) {
            calls.push(mix::format(&mut self.rng));
        }
        let mut sound = false;
        let mut done = String::new();
        for call in &calls {
            let reply = pair.run(call).map_err(|what| {
                let change = change_text(self.pair.tables(), &tables);
                format!("on damaged tables: {change}\n{done}{call}\n{what}")
            })?;
            done += &format!("{call} -> {reply}\n");
            self.counts.take(call, &reply);
            if let Call::Audit = call {
                sound = reply.status == 1;
            }
        }
        if sound {
            self.counts.damaged_sound += 1;
            self.go_on_from(&tables);
        } else {
            self.counts.damaged_unsound += 1;
        }
        Ok(())
    }

    /// Takes over sound tables, now and then; where handles run out, for a short while.
    fn go_on_from(&mut self, tables: &[u8]) {
        let few_handles_left = tables[3..10] == [0xFF; 7];
        if !self.rng.chance(if few_handles_left { 8 } else { 50 }) {
            return;
        }
        if few_handles_left {
            self.steps_left = self.steps_left.min(60);
        }
        self.history.push(Event::Put(changes(self.pair.tables(), tables)));
        self.pair = Pair::new(tables);
        let opens = Tables::new(tables).expect("sound tables").live_opens();
        self.handles.live = opens.map(|open| open.handle()).collect();
    }

    fn print_history(&self) {
        eprintln!("events since the last format:");
        for (number, event) in self.history.iter().enumerate() {
            match event {
                Event::Call(call, reply) => eprintln!("{number:5} {call} -> {reply}"),
                Event::Put(changes) => eprintln!("{number:5} put {}", changes_text(changes)),
            }
        }
    }
}

/// The runs of bytes in which tables of one length differ, with the new bytes.
fn changes(old: &[u8], new: &[u8]) -> Vec<(usize, Vec<u8>)> {
    let mut runs: Vec<(usize, Vec<u8>)> = Vec::new();
    for at in (0..new.len()).filter(|at| old[*at] != new[*at]) {
        match runs.last_mut() {
            Some((start, bytes)) if *start + bytes.len() == at => bytes.push(new[at]),
            _ => runs.push((at, vec![new[at]])),
        }
    }
    runs
}

fn changes_text(changes: &[(usize, Vec<u8>)]) -> String {
    let text: Vec<_> =
        changes.iter().map(|(at, bytes)| format!("{} = {}", place(*at), hex(bytes))).collect();
    text.join(", ")
}

fn change_text(old: &[u8], new: &[u8]) -> String {
    if old.len() == new.len() {
        changes_text(&changes(old, new))
    } else {
        format!("{} bytes, zeros where there are more", new.len())
    }
}

/// A number on the command line, or the default.
fn argument(number: usize, default: u64) -> u64 {
    env::args().nth(number).map_or(default, |text| {
        text.replace('_', "").parse().unwrap_or_else(|_| {
            eprintln!("usage: compare [CALLS] [SEED]");
            std::process::exit(2)
        })
    })
}

fn main() -> ExitCode {
    let (calls, seed) = (argument(1, DEFAULT_CALLS), argument(2, DEFAULT_SEED));
    let mut comparison = Comparison::new(seed);
    while comparison.counts.calls < calls {
        if let Err(what) = comparison.one_volume(calls) {
            comparison.print_history();
            eprintln!("compare: difference after {} calls, seed {seed}", comparison.counts.calls);
            eprintln!("{what}");
            return ExitCode::FAILURE;
        }
    }
    let missing = comparison.counts.missing();
    println!("{}", comparison.counts.summary(seed));
    if calls >= DEFAULT_CALLS && !missing.is_empty() {
        eprintln!("compare: never seen: {}", missing.join(", "));
        return ExitCode::FAILURE;
    }
    ExitCode::SUCCESS
}
