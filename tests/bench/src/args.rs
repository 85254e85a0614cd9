//! What the command line asks for: some parts of the bench, or all of them.
use std::process::exit;

#[derive(Clone, Copy)]
pub enum Part {
    Hash,
    Calls,
    Growth,
    Quick,
    Chains,
    ChainCalls,
    Stack,
}

const PARTS: [(&str, Part); 7] = [
    ("--hash", Part::Hash),
    ("--calls", Part::Calls),
    ("--growth", Part::Growth),
    ("--quick", Part::Quick),
    ("--chains", Part::Chains),
    ("--chain-calls", Part::ChainCalls),
    ("--stack", Part::Stack),
];

pub struct Args {
    pub parts: Vec<Part>,
    /// The most seconds that one check of a chain may take. A longer chain is shortened, and its row says so.
    pub limit: f64,
}

impl Args {
    pub fn read() -> Args {
        let mut args = Args { parts: Vec::new(), limit: 30.0 };
        let mut given = std::env::args().skip(1);
        while let Some(word) = given.next() {
            let part = PARTS.iter().find(|(name, _)| *name == word);
            match (part, word.as_str()) {
                (Some((_, part)), _) => args.parts.push(*part),
                (None, "--limit") => args.limit = seconds(given.next()),
                _ => usage(),
            }
        }
        if args.parts.is_empty() {
            args.parts = PARTS.map(|(_, part)| part).into();
        }
        args
    }
}

fn seconds(word: Option<String>) -> f64 {
    word.and_then(|word| word.parse().ok()).unwrap_or_else(|| usage())
}

fn usage() -> ! {
    let parts = PARTS.map(|(name, _)| name).join(" ");
    eprintln!("parts: {parts}; without one, all of them. --limit SECONDS: the most that one check of a chain may take (30).");
    exit(2)
}
