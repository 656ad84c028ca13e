//! Runs two functions on the same generated cases and counts the differences.
use crate::random::Random;
use player::words::{Value, line, words};
use std::{
    collections::BTreeMap,
    fmt,
    panic::{AssertUnwindSafe, catch_unwind},
    time::{Duration, Instant},
};

/// How long to run: until the cases or the time are used up.
pub struct Limits {
    pub cases: u64,
    pub time: Duration,
    pub seed: u64,
    /// How many differing inputs are printed.
    pub shown: u64,
}

pub struct Summary {
    pub name: &'static str,
    pub cases: u64,
    pub differences: u64,
    /// How many answers were more than `none` or `false`.
    pub some: u64,
    pub seed: u64,
    pub time: Duration,
    pub tally: Tally,
}

/// A class of cases: what it is told by, and its name.
pub type Class = (&'static str, &'static str);

/// How many cases of each class there were.
pub type Tally = BTreeMap<Class, u64>;

/// A line for all classes that are told by the same.
pub fn lines(tally: &Tally) -> Vec<String> {
    let mut lines = BTreeMap::new();
    for ((by, name), count) in tally {
        let line = lines.entry(by).or_insert_with(|| format!("{by}:"));
        *line += &format!(" {name} {count};");
    }
    lines.into_values().collect()
}

impl fmt::Display for Summary {
    fn fmt(&self, f: &mut fmt::Formatter) -> fmt::Result {
        write!(
            f,
            "{:<24} {:>10} cases {:>8} differences  seed {}  {:.1} s",
            self.name,
            self.cases,
            self.differences,
            self.seed,
            self.time.as_secs_f64()
        )?;
        if self.some < self.cases {
            write!(f, "  {} some", self.some)?;
        }
        lines(&self.tally)
            .iter()
            .try_for_each(|line| write!(f, "\n  {line}"))
    }
}

type Run = dyn Fn(&'static str, &Limits) -> Summary;

pub struct Comparison {
    /// The function's name, as the oracle has it, then the kind of cases.
    pub name: &'static str,
    /// Whether a difference is a fault, or only reported.
    pub must_agree: bool,
    run: Box<Run>,
}

/// A comparison of `ours` with `theirs` on the inputs that `generate` gives.
pub fn compare<I: Value, O: Value>(
    name: &'static str,
    generate: impl Fn(&mut Random) -> I + 'static,
    ours: impl Fn(&I) -> O + 'static,
    theirs: impl Fn(&I) -> O + 'static,
) -> Comparison {
    compare_classes(name, generate, ours, theirs, |_, _| Vec::new())
}

/// The same, which also counts the cases of each class; `classes` gives those
/// of a case and their answer to it.
pub fn compare_classes<I: Value, O: Value>(
    name: &'static str,
    generate: impl Fn(&mut Random) -> I + 'static,
    ours: impl Fn(&I) -> O + 'static,
    theirs: impl Fn(&I) -> O + 'static,
    classes: impl Fn(&I, &O) -> Vec<Class> + 'static,
) -> Comparison {
    Comparison {
        name,
        must_agree: true,
        run: Box::new(move |name, limits| drive(name, limits, &generate, &ours, &theirs, &classes)),
    }
}

impl Comparison {
    /// The same comparison, where differences are no fault.
    pub fn may_differ(self) -> Self {
        Self {
            must_agree: false,
            ..self
        }
    }
    pub fn run(&self, limits: &Limits) -> Summary {
        (self.run)(self.name, limits)
    }
}

fn drive<I: Value, O: Value>(
    name: &'static str,
    limits: &Limits,
    generate: impl Fn(&mut Random) -> I,
    ours: impl Fn(&I) -> O,
    theirs: impl Fn(&I) -> O,
    classes: impl Fn(&I, &O) -> Vec<Class>,
) -> Summary {
    let start = Instant::now();
    let mut random = Random::new(limits.seed);
    let mut tally = Tally::new();
    let (mut cases, mut differences, mut some) = (0, 0, 0);
    // The clock is read seldom, so that it takes no time.
    while cases < limits.cases && (cases % 256 != 0 || start.elapsed() < limits.time) {
        let input = generate(&mut random);
        let (our, their) = (answer(&ours, &input), answer(&theirs, &input));
        cases += 1;
        some += u64::from(their.as_ref().is_some_and(Value::some));
        for class in their.iter().flat_map(|their| classes(&input, their)) {
            *tally.entry(class).or_default() += 1;
        }
        if !same(&our, &their) {
            differences += 1;
            if differences <= limits.shown {
                let function = name.split(' ').next().unwrap_or(name);
                println!("{}", shown(function, &input, &our, &their));
            }
        }
    }
    Summary {
        name,
        cases,
        differences,
        some,
        seed: limits.seed,
        time: start.elapsed(),
        tally,
    }
}

/// A function's answer; none if it panicked.
fn answer<I, O>(function: impl Fn(&I) -> O, input: &I) -> Option<O> {
    catch_unwind(AssertUnwindSafe(|| function(input))).ok()
}

/// Equal word for word, as numbers. A panic equals nothing.
fn same(our: &Option<impl Value>, their: &Option<impl Value>) -> bool {
    let (Some(our), Some(their)) = (our, their) else {
        return false;
    };
    let (our, their) = (words(our), words(their));
    our.len() == their.len() && our.iter().zip(their).all(|(a, b)| a.same(b))
}

/// A differing input as a request for the oracle, and both answers.
pub fn shown<O: Value>(
    function: &str,
    input: &impl Value,
    our: &Option<O>,
    their: &Option<O>,
) -> String {
    let text = |answer: &Option<O>| {
        let value = answer.as_ref();
        value.map_or("panicked".into(), |value| line(&words(value)))
    };
    format!(
        "{function} {}\n  ours   {}\n  theirs {}",
        line(&words(input)),
        text(our),
        text(their)
    )
}

#[cfg(test)]
mod tests {
    use super::*;
    use player::words::Word;

    fn differences(ours: impl Fn(&f32) -> f32 + 'static) -> u64 {
        let limits = Limits {
            cases: 100,
            time: Duration::MAX,
            seed: 1,
            shown: 0,
        };
        let every_other = |r: &mut Random| r.below(2) as f32;
        compare("test", every_other, ours, |x| *x)
            .run(&limits)
            .differences
    }

    #[test]
    fn differences_are_counted_as_numbers() {
        assert_eq!(differences(|x| *x), 0);
        assert_eq!(differences(|x| if *x == 0. { -0. } else { *x }), 0);
        assert_eq!(differences(|x| x + 1.), 100);
        let zeros = differences(|x| if *x == 0. { f32::NAN } else { *x });
        assert!(zeros > 30 && zeros < 70);
        assert_eq!(differences(|x| if *x == 0. { panic!() } else { *x }), zeros);
        assert!(Word::Float(f32::NAN).same(Word::Float(-f32::NAN)));
    }
}
