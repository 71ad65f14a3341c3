//! soak [CALLS [SEED [FROM]]]: random and damaged calls of every export, each given to the library and to the independent implementation.
//! The first difference ends it with a status other than 0 and the words that repeat it, and so does a long run in which an export never
//! returned one of its numbers. A call follows from the seed and its own position alone.

#[path = "../../../tests/both/mod.rs"]
mod both;
mod calls;
#[path = "../../../../reference/tests/common/mod.rs"]
mod common;
mod watch;

use calls::EXPORTS;
use std::panic::catch_unwind;
use std::process::ExitCode;
use std::time::{Instant, SystemTime, UNIX_EPOCH};

/// How often each export returned each number, 0 to 13.
type Counts = [[u64; 14]; EXPORTS.len()];

/// From so many calls on every export has returned each of its numbers.
const MANY: u64 = 20_000;

#[derive(Clone, Copy)]
struct Soak {
    calls: u64,
    seed: u64,
    from: u64,
}

/// The argument at a place; an empty one is as none.
fn argument(place: usize, otherwise: u64) -> Result<u64, String> {
    match std::env::args().nth(place) {
        Some(word) if !word.is_empty() => word
            .parse()
            .map_err(|_| format!("{word} is no whole number")),
        _ => Ok(otherwise),
    }
}

impl Soak {
    fn of_arguments() -> Result<Self, String> {
        let since = SystemTime::now().duration_since(UNIX_EPOCH);
        let now = since.map_or(0, |since| since.as_nanos() as u64);
        Ok(Soak {
            calls: argument(1, 1_000_000)?,
            seed: argument(2, now)?,
            from: argument(3, 0)?,
        })
    }

    /// All calls, or the position of the first one that differs.
    fn run(self, counts: &mut Counts) -> Result<(), u64> {
        let start = Instant::now();
        let tenth = (self.calls / 10).max(1);
        for done in 0..self.calls {
            let call = self.from.wrapping_add(done);
            watch::begin(self.seed, call);
            let answer = catch_unwind(|| calls::one(self.seed, call));
            let (export, number) = answer.map_err(|_| call)?;
            counts[export as usize][number] += 1;
            if (done + 1) % tenth == 0 {
                let seconds = start.elapsed().as_secs();
                println!("{} of {} calls, {seconds} s", done + 1, self.calls);
            }
        }
        watch::end();
        Ok(())
    }
}

fn print(counts: &Counts) {
    println!("how often each number was returned:");
    for (export, numbers) in EXPORTS.into_iter().zip(counts) {
        let seen = (0..).zip(numbers).filter(|(_, &count)| count > 0);
        let seen: Vec<String> = seen
            .map(|(number, count): (usize, _)| format!("{number}: {count}"))
            .collect();
        println!("  {:8} {}", export.name(), seen.join(", "));
    }
}

/// The numbers that an export can return and never did.
fn unseen(counts: &Counts) -> Vec<String> {
    let mut unseen = Vec::new();
    for (export, seen) in EXPORTS.into_iter().zip(counts) {
        for &number in export.numbers().iter().filter(|&&number| seen[number] == 0) {
            unseen.push(format!("{} {number}", export.name()));
        }
    }
    unseen
}

fn main() -> ExitCode {
    let soak = match Soak::of_arguments() {
        Ok(soak) => soak,
        Err(what) => {
            eprintln!("soak: {what}");
            return ExitCode::from(2);
        }
    };
    println!(
        "seed {}, {} calls from {}",
        soak.seed, soak.calls, soak.from
    );
    watch::start();
    let mut counts = Counts::default();
    match soak.run(&mut counts) {
        Ok(()) => {
            print(&counts);
            println!("{} calls, 0 differences, seed {}", soak.calls, soak.seed);
            let unseen = unseen(&counts);
            if soak.calls >= MANY && !unseen.is_empty() {
                eprintln!("soak: never returned: {}", unseen.join(", "));
                return ExitCode::FAILURE;
            }
            ExitCode::SUCCESS
        }
        Err(call) => {
            eprintln!("{}", watch::repeated(soak.seed, call));
            ExitCode::FAILURE
        }
    }
}
