//! `fuzz-calls --count N [--seed S] [--from K]`: checks the lists K to K+N-1 of a seed, on all processors. Without a seed one is
//! drawn from the clock. The seed is printed first, the tally and the counts last.

#![forbid(unsafe_code)]

use fuzz_calls::material::Pool;
use fuzz_calls::tally::Tally;
use std::process::ExitCode;
use std::sync::atomic::{AtomicU64, Ordering};
use std::thread;
use std::time::{SystemTime, UNIX_EPOCH};
use streams::options::Options;

const USAGE: &str = "usage: fuzz-calls --count N [--seed S] [--from K]";
/// So many failed lists are told of by each thread.
const MOST_TOLD: u64 = 5;

fn main() -> ExitCode {
    let words: Vec<String> = std::env::args().skip(1).collect();
    match Settings::parse(&words) {
        Ok(settings) => settings.run(),
        Err(complaint) => {
            eprintln!("fuzz-calls: {complaint}");
            ExitCode::from(2)
        }
    }
}

struct Settings {
    seed: u64,
    from: u64,
    count: u64,
}

impl Settings {
    fn parse(words: &[String]) -> Result<Self, String> {
        let mut options = Options::parse(words, USAGE)?;
        let settings = Settings {
            seed: options.number("--seed")?.unwrap_or_else(from_clock),
            from: options.number("--from")?.unwrap_or(0),
            count: options.number("--count")?.ok_or(USAGE)?,
        };
        options.done()?;
        Ok(settings)
    }

    fn run(&self) -> ExitCode {
        println!("seed {}, lists {} to {}", self.seed, self.from, self.from + self.count.max(1) - 1);
        let next = AtomicU64::new(0);
        let threads = thread::available_parallelism().map_or(1, |count| count.get());
        let parts: Vec<(Tally, u64)> = thread::scope(|scope| {
            let started: Vec<_> = (0..threads).map(|_| scope.spawn(|| self.part(&next))).collect();
            started.into_iter().map(|part| part.join().unwrap_or((Tally::default(), 1))).collect()
        });
        let mut tally = Tally::default();
        let mut failed = 0;
        for (part, wrong) in &parts {
            tally.add(part);
            failed += wrong;
        }
        println!("{tally}");
        println!("{} passed, {failed} failed", tally.lists.saturating_sub(failed));
        ExitCode::from(u8::from(failed > 0))
    }

    /// One thread's share: it takes the next list until none is left.
    fn part(&self, next: &AtomicU64) -> (Tally, u64) {
        let pool = Pool::new();
        let mut tally = Tally::default();
        let mut failed = 0;
        loop {
            let number = next.fetch_add(1, Ordering::Relaxed);
            if number >= self.count {
                return (tally, failed);
            }
            if let Err(what) = fuzz_calls::check(&pool, self.seed, self.from + number, &mut tally) {
                failed += 1;
                if failed <= MOST_TOLD {
                    println!("FAILED: {what}");
                }
            }
        }
    }
}

fn from_clock() -> u64 {
    SystemTime::now().duration_since(UNIX_EPOCH).map_or(1, |since| since.as_nanos() as u64)
}
