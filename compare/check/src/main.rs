//! Runs comparisons and prints a line for each.
use check::{
    driver::{Comparison, Limits},
    number_after,
};
use std::{process::ExitCode, time::Duration};

const HELP: &str = "\
usage: check [--cases N] [--seconds T] [--seed S] [--shown K] [NAME ..]
Compares functions on generated cases, and prints for each: its name, the
cases, the differences as numbers, the seed, the time, where an answer can be
none or false, how many were not, and for orders, how many there were of each
class. The first K differing inputs are printed as requests for the oracle.
  --cases N    at most N cases for each comparison (1000000)
  --seconds T  at most T seconds for each
  --seed S     the generator's seed (1)
  --shown K    differing inputs printed for each (3)
  NAME         only comparisons whose name starts so (all)
Status 1 if two functions that must agree differ.";

fn comparisons() -> Vec<Comparison> {
    let list = check::hypot::comparisons();
    #[cfg(feature = "probe")]
    let list = list
        .chain(check::inner::comparisons())
        .chain(check::picture::comparisons())
        .chain(check::uncalled::comparisons())
        .chain(check::host::comparisons());
    list.collect()
}

struct Options {
    limits: Limits,
    names: Vec<String>,
}

/// The options, or none if the help is asked for.
fn options(mut words: impl Iterator<Item = String>) -> Result<Option<Options>, String> {
    let mut limits = Limits {
        cases: 1_000_000,
        time: Duration::MAX,
        seed: 1,
        shown: 3,
    };
    let mut cases = None;
    let mut names = Vec::new();
    while let Some(word) = words.next() {
        let mut number = || number_after(&word, &mut words);
        match word.as_str() {
            "--help" => return Ok(None),
            "--cases" => cases = Some(number()?),
            "--seconds" => {
                limits.time = Duration::from_secs(number()?);
                limits.cases = u64::MAX;
            }
            "--seed" => limits.seed = number()?,
            "--shown" => limits.shown = number()?,
            _ if word.starts_with('-') => return Err(format!("no option {word}")),
            _ => names.push(word),
        }
    }
    limits.cases = cases.unwrap_or(limits.cases);
    Ok(Some(Options { limits, names }))
}

fn main() -> ExitCode {
    let options = match options(std::env::args().skip(1)) {
        Ok(Some(options)) => options,
        Ok(None) => {
            println!("{HELP}\nComparisons");
            for comparison in comparisons() {
                println!("  {}", comparison.name);
            }
            return ExitCode::SUCCESS;
        }
        Err(error) => {
            eprintln!("check: {error} (see --help)");
            return ExitCode::from(2);
        }
    };
    let wanted = |c: &Comparison| {
        let names = &options.names;
        names.is_empty() || names.iter().any(|name| c.name.starts_with(name.as_str()))
    };
    let (mut run, mut faults) = (0, 0);
    for comparison in comparisons().into_iter().filter(wanted) {
        let summary = comparison.run(&options.limits);
        println!("{summary}");
        run += 1;
        if comparison.must_agree {
            faults += summary.differences;
        }
    }
    if run == 0 {
        eprintln!("check: no comparison has such a name (see --help)");
        return ExitCode::from(2);
    }
    if faults > 0 {
        ExitCode::FAILURE
    } else {
        ExitCode::SUCCESS
    }
}
