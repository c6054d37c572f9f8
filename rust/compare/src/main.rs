//! Compares the proved lowering with the original, byte for byte.

#[cfg(feature = "ours")]
mod check;
mod samples;
#[cfg(feature = "ours")]
mod shrink;

use std::{path::PathBuf, process::ExitCode};
use tickets::{Kind, Rng, Words};

const USAGE: &str = "\
compare [OPTIONS]: compares ours with the original

  --count N      tickets of each random kind (default 10000); every ticket of
                 the kinds samples, limits and worst is tried, whatever N is
  --seed N       another seed gives other tickets (default 1)
  --kind KIND    only this kind; may be given again. Kinds: samples, single,
                 singleany, typed, deep, mixed, wild, damaged, limits, worst
  --samples DIR  the folder of the NAME.in and NAME.out files
  --show N       how many differences of a kind are shown (default 3)
  --self         compare the original's answers with the samples, and no more
  --write DIR    write tickets of the kinds with the original's answers as new
                 samples, and no more; --refusal N: only those refused so";

/// What the command line asks for.
pub struct Options {
    pub count: usize,
    pub seed: u64,
    pub kinds: Vec<String>,
    pub samples: Option<PathBuf>,
    pub show: usize,
    pub only_self: bool,
    pub write: Option<PathBuf>,
    pub refusal: Option<u8>,
}

impl Options {
    fn read() -> Result<Self, String> {
        let mut options = Self {
            count: 10_000,
            seed: 1,
            kinds: Vec::new(),
            samples: samples::folder(),
            show: 3,
            only_self: false,
            write: None,
            refusal: None,
        };
        let mut words = Words::of_program();
        while let Some(word) = words.option() {
            match word.as_str() {
                "--count" => options.count = words.number()?,
                "--seed" => options.seed = words.number()?,
                "--kind" => options.kinds.push(words.value()?),
                "--samples" => options.samples = Some(words.value()?.into()),
                "--show" => options.show = words.number()?,
                "--self" => options.only_self = true,
                "--write" => options.write = Some(words.value()?.into()),
                "--refusal" => options.refusal = Some(words.number()?),
                _ => return Err(format!("{word}: not an option\n{USAGE}")),
            }
        }
        Ok(options)
    }
}

/// The random generator of a ticket.
pub fn generator(kind: Kind, seed: u64, index: u64) -> Rng {
    Rng::new(Rng::new(seed ^ (kind as u64) << 56).draw() ^ index)
}

/// How many differences there are.
fn run() -> Result<usize, String> {
    let options = Options::read()?;
    if options.only_self {
        return samples::compare_original(&options);
    }
    if let Some(folder) = &options.write {
        samples::write(&options, folder)?;
        return Ok(0);
    }
    #[cfg(feature = "ours")]
    return check::compare(&options);
    #[cfg(not(feature = "ours"))]
    Err("built without the static library: only --self is there".into())
}

fn main() -> ExitCode {
    match run() {
        Ok(0) => ExitCode::SUCCESS,
        Ok(_) => ExitCode::FAILURE,
        Err(message) => {
            eprintln!("{message}");
            ExitCode::from(2)
        }
    }
}
