//! Scripts with their answers, and what the tests in C have left beside them.
use crate::calls::{Answer, Call};
use std::collections::HashMap;
use std::env;
use std::fs;
use std::path::{Path, PathBuf};

const EXAMPLES: &str = "../../examples";
const FEWEST_EXAMPLES: usize = 6;
const SUM_FACTOR: u64 = 0x100_0000_01B3;
const FILL_STEP: u64 = 0x9E37_79B9_7F4A_7C15;

pub struct Script {
    pub path: PathBuf,
    pub words: usize,
    pub slots: u16,
    pub calls: Vec<Call>,
    pub answers: Vec<Answer>,
    /// What all words of the row are as one number, after some of the calls, counted from 1; of none where C was not there.
    pub sums: HashMap<usize, u64>,
}

/// All words of a row as one number, to compare rows by.
pub fn sum(row: &[u64]) -> u64 {
    let first = row.len() as u64;
    row.iter()
        .fold(first, |sum, word| (sum ^ word).wrapping_mul(SUM_FACTOR))
}

/// So many words with what a heap must not rely on: the same as in C.
pub fn filled(words: usize) -> Vec<u64> {
    (1..=words as u64)
        .map(|i| i.wrapping_mul(FILL_STEP))
        .collect()
}

pub fn read(path: &Path) -> String {
    fs::read_to_string(path).unwrap_or_else(|error| panic!("{}: {error}", path.display()))
}

/// The folder of the scripts made at random; none if the tests were started by hand.
pub fn made() -> Option<PathBuf> {
    env::var_os("PAGZIMUL_SCRIPTS").map(PathBuf::from)
}

fn parse(path: &Path) -> Option<Script> {
    let text = read(path);
    let passed = |line: &&str| !line.is_empty() && !line.starts_with('#');
    let mut lines = text.lines().filter(passed);
    let (words, slots) = lines.next()?.split_once(' ')?;
    let answers = read(&path.with_extension("answers"));
    let sums = match made() {
        Some(folder) => folder.join(path.file_name()?).with_extension("sums"),
        None => PathBuf::new(),
    };
    let sums = fs::read_to_string(sums).unwrap_or_default();
    let pair = |line: &str| {
        let (call, sum) = line.split_once(' ')?;
        Some((call.parse().ok()?, sum.parse().ok()?))
    };
    Some(Script {
        path: path.to_owned(),
        words: words.parse().ok()?,
        slots: slots.parse().ok()?,
        calls: lines.map(Call::read).collect::<Option<_>>()?,
        answers: answers.lines().map(Answer::read).collect::<Option<_>>()?,
        sums: sums.lines().map(pair).collect::<Option<_>>()?,
    })
}

impl Script {
    pub fn of(path: &Path) -> Script {
        let script = parse(path).unwrap_or_else(|| panic!("{}: no script", path.display()));
        assert_eq!(script.calls.len(), script.answers.len());
        script
    }

    pub fn fail(&self, call: usize, what: &str) -> ! {
        let name = self.path.display();
        match self.calls.get(call) {
            Some(asked) => panic!("{name}, call {}, {asked}: {what}", call + 1),
            None => panic!("{name}: {what}"),
        }
    }
}

/// The examples, and the scripts made at random.
pub fn paths() -> Vec<PathBuf> {
    let examples = Path::new(env!("CARGO_MANIFEST_DIR")).join(EXAMPLES);
    let mut paths = Vec::new();
    for folder in [Some(examples), made()].into_iter().flatten() {
        let entries = fs::read_dir(&folder).unwrap_or_else(|e| panic!("{}: {e}", folder.display()));
        let files = entries.map(|entry| entry.expect("an entry can be read").path());
        paths.extend(files.filter(|path| path.extension().is_some_and(|e| e == "script")));
    }
    assert!(paths.len() >= FEWEST_EXAMPLES, "examples are missing");
    paths.sort();
    paths
}
