//! The sample tickets with their answers.

use crate::{generator, Options};
use original::Answer;
use std::{
    env, fs,
    path::{Path, PathBuf},
};
use tickets::{limits, Kind};

/// A ticket and what `lower` prints for it.
pub struct Sample {
    pub name: String,
    pub ticket: Vec<u8>,
    pub printed: Vec<u8>,
}

/// The folder, if it is in one of the usual places.
pub fn folder() -> Option<PathBuf> {
    if let Some(folder) = env::var_os("SAMPLES") {
        return Some(folder.into());
    }
    let root = PathBuf::from(env!("CARGO_MANIFEST_DIR")).join("..");
    ["../samples", "../../samples", "../../shared/samples"]
        .iter()
        .map(|folder| root.join(folder))
        .find(|folder| folder.is_dir())
}

/// Whether a sample's answer may be another one now: it was made with document
/// 01's limits for 8 and 10, which document 02 raises.
pub fn raised(printed: &[u8]) -> bool {
    printed.starts_with(b"refused,8,") || printed.starts_with(b"refused,10,")
}

/// All samples by name.
pub fn all(options: &Options) -> Result<Vec<Sample>, String> {
    let folder = options
        .samples
        .as_ref()
        .ok_or("no samples: give --samples DIR")?;
    let told = |error| format!("{}: {error}", folder.display());
    let mut all = Vec::new();
    for entry in fs::read_dir(folder).map_err(told)? {
        let path = entry.map_err(told)?.path();
        if path.extension().is_some_and(|end| end == "in") {
            all.push(Sample {
                name: path.file_stem().unwrap().to_string_lossy().into_owned(),
                ticket: fs::read(&path).map_err(told)?,
                printed: fs::read(path.with_extension("out")).map_err(told)?,
            });
        }
    }
    all.sort_by(|a, b| a.name.cmp(&b.name));
    Ok(all)
}

/// The original's answers against the samples.
pub fn compare_original(options: &Options) -> Result<usize, String> {
    let all = all(options)?;
    let mut differences = 0;
    for sample in &all {
        let printed = original::answer(&sample.ticket, 65_536).printed();
        if printed != sample.printed && !raised(&sample.printed) {
            differences += 1;
            println!("{} differs from the original", sample.name);
        }
    }
    println!("{} samples, {differences} differences", all.len());
    Ok(differences)
}

/// Writes tickets with the original's answers as samples, `count` of each
/// kind at most.
pub fn write(options: &Options, folder: &Path) -> Result<(), String> {
    fs::create_dir_all(folder).map_err(|error| format!("{}: {error}", folder.display()))?;
    let kinds = match options.kinds.is_empty() {
        true => Kind::ALL.to_vec(),
        false => options
            .kinds
            .iter()
            .map(|kind| kind.parse())
            .collect::<Result<_, _>>()?,
    };
    let mut total = 0;
    for kind in kinds {
        // Looks at many more tickets than are written, for a rare refusal.
        let tickets = (0..1_000 * options.count as u64).map_while(|index| match kind {
            Kind::Limits => Some(limits().get(index as usize)?.1.clone()),
            _ => Some(kind.ticket(&mut generator(kind, options.seed, index))),
        });
        let answered = tickets
            .map(|ticket| (original::answer(&ticket, 65_536), ticket))
            .filter(|(answer, _)| match (options.refusal, answer) {
                (None, _) => true,
                (Some(number), Answer::Refused(refusal)) => refusal.number == number,
                _ => false,
            })
            .take(options.count);
        for (index, (answer, ticket)) in answered.enumerate() {
            let refusal = options
                .refusal
                .map_or(String::new(), |n| format!("-refused{n}"));
            let path = folder.join(format!("{kind}-{}{refusal}-{index:05}", options.seed));
            let written = fs::write(path.with_extension("in"), ticket)
                .and_then(|()| fs::write(path.with_extension("out"), answer.printed()));
            written.map_err(|error| format!("{}: {error}", path.display()))?;
            total += 1;
        }
    }
    println!("{total} samples written to {}", folder.display());
    Ok(())
}
