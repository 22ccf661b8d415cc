//! The words of the command.

use std::path::PathBuf;

use crate::files::Kind;

pub const USAGE: &str = "\
usage: tools/check-definitions [--generate N] [--seed S] [--texts FILE] [--records FILE]
                               [--lookups FILE] [--keep DIR] [--jobs K]
       tools/check-definitions --chosen DIR --out DIR
Holds the definitions in crates/*/specs against the oracle: each case is a theorem that antt
computes, in a scratch repository.
  --generate N       N texts, and a fifth as many records and lookups, from the oracle's generator
  --seed S           which of them; 1 if it is not given
  --texts FILE       frames: text, answer, text, answer, and so on
  --records FILE     frames: record, answer
  --lookups FILE     frames: name, record, answer
  --keep DIR         make the scratch repository in DIR, and leave it there
  --jobs K           check K crates at a time; 2 if it is not given
  --chosen DIR       only write the antt modules of the questions in DIR, with their answers
  --out DIR          to this folder
";

#[derive(Debug)]
pub struct Options {
    pub generate: Option<u64>,
    pub seed: u64,
    pub files: Vec<(Kind, PathBuf)>,
    pub keep: Option<PathBuf>,
    pub jobs: usize,
    pub chosen: Option<PathBuf>,
    pub out: Option<PathBuf>,
}

pub fn parse(mut words: impl Iterator<Item = String>) -> Result<Options, String> {
    let mut options = Options {
        generate: None,
        seed: 1,
        files: Vec::new(),
        keep: None,
        jobs: 2,
        chosen: None,
        out: None,
    };
    while let Some(word) = words.next() {
        let value = words.next().ok_or(format!("{word} needs a value"));
        set(&mut options, &word, value)?;
    }
    options.complete()
}

fn set(options: &mut Options, word: &str, value: Result<String, String>) -> Result<(), String> {
    let number = |value: String| {
        let number = value.parse::<u64>();
        number.map_err(|_| format!("{word} needs a number, and {value} is none"))
    };
    match word {
        "--generate" => options.generate = Some(number(value?)?),
        "--seed" => options.seed = number(value?)?,
        "--texts" => options.files.push((Kind::Texts, value?.into())),
        "--records" => options.files.push((Kind::Records, value?.into())),
        "--lookups" => options.files.push((Kind::Lookups, value?.into())),
        "--keep" => options.keep = Some(value?.into()),
        "--jobs" => options.jobs = number(value?)?.clamp(1, 64) as usize,
        "--chosen" => options.chosen = Some(value?.into()),
        "--out" => options.out = Some(value?.into()),
        _ => return Err(format!("{word} is not known\n{USAGE}")),
    }
    Ok(())
}

impl Options {
    /// The options, if they ask for one thing.
    fn complete(self) -> Result<Self, String> {
        let checks = self.generate.is_some() || !self.files.is_empty();
        match (checks, self.chosen.is_some(), self.out.is_some()) {
            (true, false, false) | (false, true, true) => Ok(self),
            _ => Err(USAGE.to_string()),
        }
    }
}

#[cfg(test)]
mod tests {
    use super::*;

    fn parsed(words: &str) -> Result<Options, String> {
        parse(words.split_whitespace().map(str::to_string))
    }

    #[test]
    fn options_have_values() {
        let options = parsed("--generate 300 --seed 7 --texts t --jobs 0").expect("options");
        assert_eq!((options.generate, options.seed), (Some(300), 7));
        assert_eq!((options.files.len(), options.jobs), (1, 1));
        let told = |words| parsed(words).expect_err("wrong words");
        assert_eq!(told("--seed"), "--seed needs a value");
        assert_eq!(told("--seed x"), "--seed needs a number, and x is none");
        assert!(told("--some thing").starts_with("--some is not known"));
    }

    #[test]
    fn something_must_be_asked_for() {
        assert_eq!(parsed("").expect_err("nothing"), USAGE);
        assert_eq!(parsed("--chosen c").expect_err("no folder"), USAGE);
        assert!(parsed("--chosen c --out f").is_ok());
        assert!(parsed("--chosen c --out f --generate 3").is_err());
    }
}
