//! The command line.

use crate::command::Command;
use crate::kinds::{Kind, KINDS};
use std::collections::BTreeMap;
use std::time::{Duration, SystemTime, UNIX_EPOCH};

/// How long a run takes if nothing is said.
const SECONDS: u64 = 60;

#[derive(Debug)]
pub struct Options {
    /// The product's programs that are given, by their names.
    pub commands: BTreeMap<&'static str, Command>,
    pub seed: u64,
    pub seconds: u64,
}

impl Options {
    pub const USAGE: &str = "usage: compare --plan CMD --calls CMD --host CMD --lent_records CMD \
         --sheet CMD --table CMD --office CMD --rehearse CMD [--seed N] [--seconds S]";

    /// Reads pairs of a name and its value.
    pub fn read(mut words: impl Iterator<Item = String>) -> Result<Self, String> {
        let mut options = Options {
            commands: BTreeMap::new(),
            seed: clock(),
            seconds: SECONDS,
        };
        while let Some(name) = words.next() {
            let value = words.next().ok_or(format!("{name} needs a value"))?;
            options.set(&name, &value)?;
        }
        if !KINDS.iter().any(|kind| options.asks(kind)) {
            return Err("no kind has its programs".to_string());
        }
        Ok(options)
    }

    /// Sets what one name stands for.
    fn set(&mut self, name: &str, value: &str) -> Result<(), String> {
        match name {
            "--seed" => self.seed = number(value)?,
            "--seconds" => self.seconds = number(value)?,
            _ => {
                let word = name.strip_prefix("--").unwrap_or("");
                let mut programs = KINDS.iter().flat_map(|kind| kind.programs);
                let program = programs.find(|&&program| word == program);
                let program = program.ok_or(format!("there is no {name}"))?;
                let command = Command::read(value).ok_or(format!("{name} is empty"))?;
                self.commands.insert(program, command);
            }
        }
        Ok(())
    }

    /// Whether all programs of a kind are given.
    pub fn asks(&self, kind: &Kind) -> bool {
        let mut programs = kind.programs.iter();
        programs.all(|program| self.commands.contains_key(program))
    }

    pub fn time(&self) -> Duration {
        Duration::from_secs(self.seconds)
    }
}

fn number(text: &str) -> Result<u64, String> {
    text.parse().map_err(|_| format!("{text} is no number"))
}

/// A seed of its own for each run.
fn clock() -> u64 {
    let since = SystemTime::now().duration_since(UNIX_EPOCH);
    since.map_or(1, |time| time.as_millis() as u64)
}
