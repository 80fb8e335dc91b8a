//! The command line.

use std::path::PathBuf;

use crate::breakage::{self, Breakage};

pub const USAGE: &str = "\
usage: compare [--seed N] [--count N] [--threads N] [--shown N] [--break FIELD] [FILE...]
       compare --self-test [--seed N] [--count N]
       compare --store FILE [--seed N] [--count N] [--candidates N] [FILE...]
       compare --one < INPUT
       compare --file < FILE";

pub enum Mode {
    Run,
    SelfTest,
    Store(PathBuf),
    One,
    File,
}

pub struct Arguments {
    pub mode: Mode,
    pub seed: u64,
    /// Inputs to compare, to search at most, or to store.
    pub count: Option<u64>,
    pub threads: usize,
    /// Disagreements that are shrunk and printed at most.
    pub shown: usize,
    /// Inputs among which those to store are chosen, beside the headers of dataspaces that go with
    /// them.
    pub candidates: u64,
    pub breakage: Option<&'static Breakage>,
    /// Real files, or directories of them.
    pub files: Vec<PathBuf>,
}

impl Arguments {
    pub fn parse(words: impl Iterator<Item = String>) -> Result<Arguments, String> {
        let mut arguments = Arguments {
            mode: Mode::Run,
            seed: 1,
            count: None,
            threads: 2,
            shown: 20,
            candidates: 400_000,
            breakage: None,
            files: Vec::new(),
        };
        let mut words = words;
        while let Some(word) = words.next() {
            arguments.take(&word, &mut words)?;
        }
        Ok(arguments)
    }

    fn take(&mut self, word: &str, words: &mut impl Iterator<Item = String>) -> Result<(), String> {
        let mut value = || words.next().ok_or(format!("{word} needs a value"));
        match word {
            "--self-test" => self.mode = Mode::SelfTest,
            "--one" => self.mode = Mode::One,
            "--file" => self.mode = Mode::File,
            "--store" => self.mode = Mode::Store(value()?.into()),
            "--seed" => self.seed = number(&value()?)?,
            "--count" => self.count = Some(number(&value()?)?),
            "--candidates" => self.candidates = number(&value()?)?,
            "--threads" => self.threads = number(&value()?)?.clamp(1, 64) as usize,
            "--shown" => self.shown = number(&value()?)? as usize,
            "--break" => self.breakage = Some(breakage::named(&value()?)?),
            _ if word.starts_with('-') => return Err(format!("{word} is not known")),
            _ => self.files.push(word.into()),
        }
        Ok(())
    }
}

fn number(word: &str) -> Result<u64, String> {
    word.parse().map_err(|_| format!("{word} is no number"))
}
