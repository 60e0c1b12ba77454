//! What the command line says.

use std::path::PathBuf;
use std::str::FromStr;

pub struct Words {
    /// `document`, `single`, `search` or `climb`.
    pub command: String,
    pub samples: u32,
    pub runs: u32,
    /// Where real notes are.
    pub notes: PathBuf,
    /// The length of the search's short documents.
    pub bytes: usize,
    /// What the bodies of the search do not hold.
    pub without: Option<String>,
    pub minutes: f64,
    /// How long the climb takes, in minutes.
    pub climb: f64,
    pub seed: u64,
    /// The folder that the slowest documents are written to.
    pub into: Option<PathBuf>,
    /// A part of the names of the inputs.
    part: String,
}

/// The word behind an option.
fn behind<T: FromStr>(option: &str, words: &mut impl Iterator<Item = String>) -> T {
    let word = words.next().and_then(|word| word.parse().ok());
    word.unwrap_or_else(|| panic!("{option} needs a value"))
}

impl Words {
    pub fn of_command_line() -> Words {
        let target = concat!(env!("CARGO_MANIFEST_DIR"), "/../../target/reference/notes");
        let mut said = Words {
            command: "document".into(),
            samples: 11,
            runs: 5,
            notes: target.into(),
            bytes: 1 << 12,
            without: None,
            minutes: 0.0,
            climb: 5.0,
            seed: 1,
            into: None,
            part: String::new(),
        };
        let mut words = std::env::args().skip(1);
        while let Some(word) = words.next() {
            match word.as_str() {
                "document" | "single" | "search" | "climb" => said.command = word,
                "--samples" => said.samples = behind(&word, &mut words),
                "--runs" => said.runs = behind(&word, &mut words),
                "--notes" => said.notes = behind(&word, &mut words),
                "--bytes" => said.bytes = behind(&word, &mut words),
                "--without" => said.without = Some(behind(&word, &mut words)),
                "--minutes" => said.minutes = behind(&word, &mut words),
                "--climb" => said.climb = behind(&word, &mut words),
                "--seed" => said.seed = behind(&word, &mut words),
                "--into" => said.into = Some(behind(&word, &mut words)),
                _ if word.starts_with("--") => panic!("{word} is no option"),
                _ => said.part = word,
            }
        }
        said
    }

    /// Whether an input of that name is meant.
    pub fn means(&self, name: &str) -> bool {
        name.contains(&self.part)
    }
}
