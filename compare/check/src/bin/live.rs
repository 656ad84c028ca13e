//! Compares generated orders in every way, on all cores, for a given time.
use check::{
    live::{BLOCK, Counts, block, fingers, sheets, written},
    number_after,
};
use std::{
    process::ExitCode,
    sync::{
        Mutex,
        atomic::{AtomicU64, Ordering},
    },
    thread,
    time::{Duration, Instant},
};

const HELP: &str = "\
usage: live [--seconds T] [--blocks N] [--settings N] [--sheets N] [--fingers N] [--seed S] [--threads N] [--shown K]
Compares layouts, refusals, film sheets, touches and viewports of generated
orders with the Rust, and measures demand 3; writes generated settings as
orders, beside the Rust's writer, and reads them back; compares film sheets of
orders with edges next to halves of tenths; and plays runs of fingers. Prints how
many cases there were of each class, and in the last line the totals.
  --seconds T  starts no block after T seconds (60; with a number of blocks, no limit)
  --blocks N   at most N blocks of 10000 orders (no limit; with another number of blocks, 0)
  --settings N at most N blocks of 10000 settings (the same)
  --sheets N   at most N blocks of 10000 orders of which only the sheets are compared (the same)
  --fingers N  at most N blocks of 10000 finger calls (the same)
  --seed S     the generator's seed (1)
  --threads N  so many threads (all cores)
  --shown K    differences printed (3)
The same seed gives the same blocks, on any number of threads.
Status 1 if there is a difference that docs/DIFFERENCES.md does not list.";

/// A block of a seed and a number.
type Block = fn(u64, u64) -> Counts;

/// The kinds of blocks.
const KINDS: [(&str, Block); 4] = [
    ("orders", block),
    ("settings", written::block),
    ("sheets", sheets::block),
    ("finger calls", fingers::block),
];

struct Options {
    time: Duration,
    /// Of each kind.
    blocks: [u64; KINDS.len()],
    seed: u64,
    threads: u64,
    shown: u64,
}

/// The options, or none if the help is asked for.
fn options(mut words: impl Iterator<Item = String>) -> Result<Option<Options>, String> {
    let (mut seconds, mut numbers) = (None, [None; KINDS.len()]);
    let mut options = Options {
        time: Duration::MAX,
        blocks: [u64::MAX; KINDS.len()],
        seed: 1,
        threads: thread::available_parallelism().map_or(1, |n| n.get() as u64),
        shown: 3,
    };
    while let Some(word) = words.next() {
        let mut number = || number_after(&word, &mut words);
        match word.as_str() {
            "--help" => return Ok(None),
            "--seconds" => seconds = Some(number()?),
            "--blocks" => numbers[0] = Some(number()?),
            "--settings" => numbers[1] = Some(number()?),
            "--sheets" => numbers[2] = Some(number()?),
            "--fingers" => numbers[3] = Some(number()?),
            "--seed" => options.seed = number()?,
            "--threads" => options.threads = number()?,
            "--shown" => options.shown = number()?,
            _ => return Err(format!("no option {word}")),
        }
    }
    let counted = numbers.iter().any(Option::is_some);
    if counted {
        options.blocks = numbers.map(Option::unwrap_or_default);
    }
    if let Some(seconds) = seconds.or((!counted).then_some(60)) {
        options.time = Duration::from_secs(seconds);
    }
    Ok(Some(options))
}

/// How often it says how far it is.
const INTERVAL: Duration = Duration::from_secs(10);

/// What came of the blocks, and how many there were of each kind.
#[derive(Default)]
struct Total {
    counts: Counts,
    blocks: [u64; KINDS.len()],
    /// The time of all threads.
    times: [Duration; KINDS.len()],
}

/// Runs blocks on all threads, of each kind in turn.
fn run(options: &Options, start: Instant) -> Total {
    let next = [0; KINDS.len()].map(AtomicU64::new);
    let total = Mutex::new((Total::default(), start));
    let work = || {
        let mut left = [true; KINDS.len()];
        while left.contains(&true) {
            for (i, (_, block)) in KINDS.into_iter().enumerate() {
                let begun = Instant::now();
                let number = next[i].fetch_add(1, Ordering::Relaxed);
                left[i] = number < options.blocks[i] && begun - start < options.time;
                if !left[i] {
                    continue;
                }
                let counts = block(options.seed, number);
                let (total, said) = &mut *total.lock().expect("no thread has panicked");
                let more = options.shown.saturating_sub(total.counts.unlisted());
                for difference in counts.shown.iter().take(more as usize) {
                    println!("{difference}");
                }
                total.counts.add(counts);
                total.blocks[i] += 1;
                total.times[i] += begun.elapsed();
                if said.elapsed() >= INTERVAL {
                    *said = Instant::now();
                    let sum = &total.counts;
                    eprintln!(
                        "{} s: {} orders, {} settings, {} sheets, {} finger calls, {} unlisted differences so far",
                        start.elapsed().as_secs(),
                        sum.orders(),
                        sum.settings(),
                        sum.sheets(),
                        sum.fingers(),
                        sum.unlisted()
                    );
                }
            }
        }
    };
    thread::scope(|scope| {
        for _ in 0..options.threads {
            scope.spawn(work);
        }
    });
    total.into_inner().expect("no thread has panicked").0
}

fn main() -> ExitCode {
    let options = match options(std::env::args().skip(1)) {
        Ok(Some(options)) => options,
        Ok(None) => {
            println!("{HELP}");
            return ExitCode::SUCCESS;
        }
        Err(error) => {
            eprintln!("live: {error} (see --help)");
            return ExitCode::from(2);
        }
    };
    let start = Instant::now();
    let Total {
        counts,
        blocks,
        times,
    } = run(&options, start);
    let (seed, threads, time) = (options.seed, options.threads, start.elapsed().as_secs_f64());
    println!("seed {seed}, {threads} threads, {time:.1} s");
    for (i, (what, _)) in KINDS.into_iter().enumerate() {
        if blocks[i] > 0 {
            let each = times[i].as_secs_f64() * 1e6 / (blocks[i] * BLOCK) as f64;
            println!(
                "blocks of {what} {}, {each:.1} microseconds of a thread for each of them",
                blocks[i]
            );
        }
    }
    println!("{counts}");
    if counts.unlisted() > 0 {
        ExitCode::FAILURE
    } else {
        ExitCode::SUCCESS
    }
}
