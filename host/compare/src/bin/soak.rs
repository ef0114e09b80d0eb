//! The comparisons of all operations on fresh seeds, for as many seconds as the one word says. On a
//! terminal one line keeps telling how far it is; elsewhere a line a minute does. A difference ends
//! it with status 1 and the seed that shows it again.

#![forbid(unsafe_code)]

use compare::calls::Operation;
use compare::random::Random;
use compare::{
    appending, dumps, float_bits, machine_lists, marshal, plans, signatures, stored, walks,
    whole_calls, Difference,
};
use reference::Convention;
use std::fmt;
use std::io::{self, IsTerminal, Write};
use std::process::ExitCode;
use std::time::{Duration, Instant, SystemTime, UNIX_EPOCH};

/// The share of a round, which takes some seconds.
const SIGNATURES: u64 = 20_000;
const PLANS: u64 = 5_000;
/// Plans that are stored, each with some checks.
const STORED: u64 = 500;
/// Of signatures, one with arguments appended.
const PAIRS: u64 = 1_000;
/// Of each operation.
const CALLS: u64 = 2_000;
const SINGLES: u64 = 50_000;
const LISTS: u64 = 500;
/// Of each convention.
const WHOLE_CALLS: u64 = 100;
const STATES: u64 = 2_000;
/// Of each convention.
const DUMPS: u64 = 1_000;
/// Of a walker, and a sixth as many whole walks.
const STEPS: u64 = 2_000;
/// How often it tells how far it is, where that is no terminal.
const PACE: Duration = Duration::from_secs(60);

fn main() -> ExitCode {
    let words: Vec<String> = std::env::args().skip(1).collect();
    let seconds = match words.as_slice() {
        [word] => word.parse().ok(),
        _ => None,
    };
    let Some(seconds) = seconds else {
        eprintln!("usage: soak SECONDS");
        return ExitCode::from(2);
    };
    let seed = compare::seed_from_environment().unwrap_or_else(seed_from_the_clock);
    println!("seed {seed:#x}; FLAKUZHEN_SEED={seed:#x} runs the same again");
    match soak(seed, Duration::from_secs(seconds)) {
        Ok(done) => {
            println!("done: {done}; no difference");
            ExitCode::SUCCESS
        }
        Err(difference) => {
            println!("DIFFERENCE: {difference}");
            ExitCode::FAILURE
        }
    }
}

fn seed_from_the_clock() -> u64 {
    let now = SystemTime::now().duration_since(UNIX_EPOCH);
    now.map_or(0, |since| since.as_nanos() as u64)
}

/// How many cases were compared.
#[derive(Default)]
struct Cases {
    signatures: u64,
    plans: u64,
    stored: u64,
    pairs: u64,
    calls: u64,
    floats: u64,
    machine_calls: u64,
    whole_calls: u64,
    dumps: u64,
    steps: u64,
}

impl Cases {
    fn total(&self) -> u64 {
        let values = self.calls + self.floats + self.steps;
        let machines = self.machine_calls + self.whole_calls + self.dumps;
        self.signatures + self.plans + self.stored + self.pairs + values + machines
    }
}

impl fmt::Display for Cases {
    fn fmt(&self, to: &mut fmt::Formatter<'_>) -> fmt::Result {
        let Cases {
            signatures,
            plans,
            stored,
            pairs,
            calls,
            floats,
            machine_calls,
            whole_calls,
            dumps,
            steps,
        } = self;
        write!(
            to,
            "{signatures} signatures, {plans} plans, {stored} stored plans, {pairs} appended, {calls} \
             calls, {floats} float conversions, {machine_calls} machine calls, {whole_calls} whole \
             calls, {dumps} walks of dumps, {steps} steps of walkers"
        )
    }
}

/// Tells how far a run is.
struct Progress {
    on_terminal: bool,
    began: Instant,
    told: Instant,
    time: Duration,
}

impl Progress {
    fn new(time: Duration) -> Progress {
        let now = Instant::now();
        Progress {
            on_terminal: io::stdout().is_terminal(),
            began: now,
            told: now,
            time,
        }
    }

    fn over(&self) -> bool {
        self.began.elapsed() >= self.time
    }

    fn tell(&mut self, done: &Cases) {
        let spent = self.began.elapsed();
        let rate = done.total() as f64 / spent.as_secs_f64();
        let left = self.time.saturating_sub(spent).as_secs();
        if self.on_terminal {
            let (minutes, seconds) = (left / 60, left % 60);
            let cases = done.total();
            self.write_over(&format!(
                "{cases} cases, {rate:.0} a second, {minutes}:{seconds:02} left"
            ));
        } else if self.told.elapsed() >= PACE {
            self.told = Instant::now();
            println!("{done}; {rate:.0} a second; {left} s left");
        }
    }

    /// Replaces the terminal's line.
    fn write_over(&self, line: &str) {
        if self.on_terminal {
            print!("\r\x1b[K{line}");
            // a terminal that is gone is no reason to stop
            let _ = io::stdout().flush();
        }
    }
}

/// Rounds until the time is over.
fn soak(seed: u64, time: Duration) -> Result<Cases, Difference> {
    let mut progress = Progress::new(time);
    let mut seeds = Random::new(seed);
    let mut done = Cases::default();
    while !progress.over() {
        let found = round(seeds.number(), &mut done);
        progress.tell(&done);
        if found.is_err() || progress.over() {
            progress.write_over("");
        }
        found?;
    }
    Ok(done)
}

fn round(seed: u64, done: &mut Cases) -> Result<(), Difference> {
    let told = |difference: Difference| Difference(format!("round {seed:#x}: {difference}"));
    done.signatures += signatures::run(seed, SIGNATURES).map_err(told)?.total();
    done.plans += plans::run(seed, PLANS).map_err(told)?.total();
    done.stored += stored::run(seed, STORED).map_err(told)?.total();
    appending::run(seed, PAIRS).map_err(told)?;
    done.pairs += PAIRS;
    for operation in Operation::ALL {
        done.calls += marshal::run(operation, seed, CALLS).map_err(told)?.total();
    }
    done.floats += float_bits::run(seed, SINGLES).map_err(told)?.total();
    for convention in Convention::ALL {
        let reach = machine_lists::run(seed, convention, LISTS).map_err(told)?;
        done.machine_calls += reach.calls;
        let reach = whole_calls::run(seed, convention, WHOLE_CALLS).map_err(told)?;
        done.whole_calls += reach.calls;
    }
    done.machine_calls += machine_lists::run_nonsense(seed, STATES)
        .map_err(told)?
        .calls;
    done.dumps += dumps::run(seed, DUMPS).map_err(told)?.walks;
    done.steps += walks::run(seed, STEPS).map_err(told)?.steps();
    Ok(())
}
