//! Compares the library under test with the reference, call by call, on
//! generated images and histories. Exits 1 on the first difference.

#![forbid(unsafe_code)]

mod blocks;
mod bulks;
mod calls;
mod cases;
mod chains;
mod channels;
mod compare;
mod damage;
mod defects;
mod draw;
mod edit;
mod empty_tiers;
mod history;
mod kinds;
mod lengths;
mod live;
mod low_marks;
mod model;
mod on_the_spot;
mod oracle;
mod plan;
mod quick;
mod render;
mod rng;
mod same_map;
mod search_ends;
mod settings;
mod subject;
mod tally;

use std::ops::Range;
use std::process::ExitCode;
use std::sync::atomic::{AtomicU64, Ordering};

use compare::Outcome;
use tally::Tally;

const USAGE: &str =
    "differential [--seed N] [--count N] [--case N] [--same-map | --chains] [--trace]";
const DEFAULT_SEED: u64 = 1;
const DEFAULT_COUNT: u64 = 60_000;

struct Options {
    seed: u64,
    count: u64,
    /// Run this case alone.
    case: Option<u64>,
    scope: Scope,
    /// Tell each case before it runs, for one that ends the process.
    trace: bool,
}

/// What a run does: all, or one part with the subject's answers alone.
#[derive(Clone, Copy)]
enum Scope {
    All,
    SameMap,
    Chains,
}

/// What is done for a case of a seed.
type Part = fn(u64, u64, &mut Tally) -> Outcome<()>;

impl Scope {
    /// The later parts go through the cases again, so that what the first
    /// finds is found at the same case as without them.
    fn parts(self) -> &'static [Part] {
        match self {
            Scope::All => &[cases::run, same_map::beside, chains::beside],
            Scope::SameMap => &[same_map::alone],
            Scope::Chains => &[chains::alone],
        }
    }

    fn flag(self) -> &'static str {
        match self {
            Scope::All => "",
            Scope::SameMap => " --same-map",
            Scope::Chains => " --chains",
        }
    }

    fn missing(self, tally: &Tally) -> Option<String> {
        match self {
            Scope::All => tally.missing(),
            Scope::SameMap => tally.missing_of(same_map::planned()),
            Scope::Chains => tally.missing_of(chains::planned()),
        }
    }

    /// The arguments that run one case again.
    fn again(self, seed: u64, case: u64) -> String {
        format!("--seed {seed}{} --case {case}", self.flag())
    }
}

impl Options {
    fn cases(&self) -> Range<u64> {
        match self.case {
            Some(case) => case..case + 1,
            None => 0..self.count,
        }
    }
}

fn main() -> ExitCode {
    let Some(options) = read_options() else {
        eprintln!("{USAGE}");
        return ExitCode::from(2);
    };
    tell_case_on_panic(options.seed, options.scope);
    let mut tally = Tally::default();
    for &part in options.scope.parts() {
        if let Err((case, difference)) = run(&options, part, &mut tally) {
            let again = options.scope.again(options.seed, case);
            println!("difference: {difference}");
            println!("again with: {again}");
            return ExitCode::FAILURE;
        }
    }
    match options.scope {
        Scope::All => tally.print(),
        _ => tally.print_met(),
    }
    conclude(&options, &tally)
}

fn run(options: &Options, part: Part, tally: &mut Tally) -> Result<(), (u64, String)> {
    for case in options.cases() {
        CASE.store(case, Ordering::Relaxed);
        if options.trace {
            eprintln!("case {case}");
        }
        part(options.seed, case, tally).map_err(|difference| (case, difference))?;
    }
    Ok(())
}

/// A run of the default length or more must have met every number of every
/// call and all else that is planned.
fn conclude(options: &Options, tally: &Tally) -> ExitCode {
    let whole = options.case.is_none() && options.count >= DEFAULT_COUNT;
    let missing = options.scope.missing(tally);
    if let Some(missing) = missing.filter(|_| whole) {
        println!("did not occur: {missing}");
        return ExitCode::FAILURE;
    }
    println!("no difference");
    ExitCode::SUCCESS
}

static CASE: AtomicU64 = AtomicU64::new(0);

fn tell_case_on_panic(seed: u64, scope: Scope) {
    let usual = std::panic::take_hook();
    std::panic::set_hook(Box::new(move |panic| {
        let case = CASE.load(Ordering::Relaxed);
        let again = scope.again(seed, case);
        println!("panic, again with: {again}");
        usual(panic);
        std::process::exit(1);
    }));
}

fn read_options() -> Option<Options> {
    let mut options = Options {
        seed: DEFAULT_SEED,
        count: DEFAULT_COUNT,
        case: None,
        scope: Scope::All,
        trace: false,
    };
    let mut arguments = std::env::args().skip(1);
    while let Some(argument) = arguments.next() {
        let mut number = || arguments.next()?.parse().ok();
        match argument.as_str() {
            "--seed" => options.seed = number()?,
            "--count" => options.count = number()?,
            "--case" => options.case = Some(number()?),
            "--same-map" => options.scope = Scope::SameMap,
            "--chains" => options.scope = Scope::Chains,
            "--trace" => options.trace = true,
            _ => return None,
        }
    }
    Some(options)
}
