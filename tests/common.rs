// What the test programs and the benchmark need, each a part of it: numbers as bytes, random numbers, a temporary folder, running the
// program, and a warehouse that keeps no table and counts all facts for every question.
#![allow(dead_code)]
use std::collections::BTreeMap;
use std::fs::{self, File};
use std::path::{Path, PathBuf};
use std::process::{Command, Stdio};

// Xorshift with a fixed seed, so that every run makes the same files.
pub struct Random(pub u64);

impl Random {
    pub fn number(&mut self) -> u32 {
        self.0 ^= self.0 << 13;
        self.0 ^= self.0 >> 7;
        self.0 ^= self.0 << 17;
        (self.0 >> 32) as u32
    }

    pub fn below(&mut self, n: u32) -> u32 {
        self.number() % n
    }
}

pub fn numbers_out(row: &[u32]) -> Vec<u8> {
    row.iter().flat_map(|x| x.to_le_bytes()).collect()
}

// A deed is a byte that says which, and its numbers.
pub fn deed_out(kind: u8, row: &[u32]) -> Vec<u8> {
    let mut bytes = vec![kind];
    bytes.extend(numbers_out(row));
    bytes
}

// How many dimensions, and for each how many factors and room for four.
pub fn dimensions_row(dimensions: &[Vec<u32>]) -> Vec<u32> {
    let mut row = vec![dimensions.len() as u32];
    for factors in dimensions {
        row.push(factors.len() as u32);
        row.extend(factors);
        row.extend((factors.len()..4).map(|_| 0));
    }
    row
}

// A folder of this process alone, gone when the program ends.
pub struct Folder(PathBuf);

impl Folder {
    pub fn new(name: &str) -> Folder {
        let path = std::env::temp_dir().join(format!("{name}-{}", std::process::id()));
        fs::create_dir_all(&path).expect("a temporary folder");
        Folder(path)
    }

    pub fn write(&self, bytes: &[u8]) -> PathBuf {
        let path = self.0.join("day.bin");
        fs::write(&path, bytes).expect("a file in the temporary folder");
        path
    }
}

impl Drop for Folder {
    fn drop(&mut self) {
        let _ = fs::remove_dir_all(&self.0);
    }
}

// How the program ended: no status means a signal.
pub struct Ended {
    pub status: Option<i32>,
    pub stdout: String,
    pub stderr: String,
}

pub fn run(program: &str, file: &Path, by_name: bool) -> Ended {
    run_with(program, &[], file, by_name)
}

// A file is read by its name or as standard input: the answers must not depend on it.
pub fn run_with(program: &str, options: &[&str], file: &Path, by_name: bool) -> Ended {
    let mut command = Command::new(program);
    command.args(options);
    if by_name {
        command.arg(file).stdin(Stdio::null());
    } else {
        command.stdin(File::open(file).expect("the file that was written"));
    }
    let output = command.output().expect("the program starts");
    Ended {
        status: output.status.code(),
        stdout: String::from_utf8_lossy(&output.stdout).into_owned(),
        stderr: String::from_utf8_lossy(&output.stderr).into_owned(),
    }
}

pub const TABLES: usize = 16;

pub const INSERT: u8 = 0;
pub const DELETE: u8 = 1;
pub const KEEP: u8 = 2;
pub const DROP: u8 = 3;
pub const ASK: u8 = 4;

pub type Levels = Vec<u32>;
// Of each place: how many facts, and their sum.
pub type Table = BTreeMap<Vec<u32>, (u64, u64)>;

#[derive(Debug)]
pub struct Deed {
    pub kind: u8,
    pub numbers: Vec<u32>,
}

// What a deed is answered with.
pub enum Answer {
    Done,
    Shown(Table, usize),
    Refused(usize, usize),
}

impl Answer {
    pub fn text(&self) -> String {
        match self {
            Answer::Done => "done\n".to_string(),
            Answer::Refused(number, place) => format!("refused {number} at {place}\n"),
            Answer::Shown(table, work) => {
                let mut text = String::new();
                for (place, (count, sum)) in table {
                    let place: Vec<String> = place.iter().map(u32::to_string).collect();
                    text += &format!("{}: {count} {sum}\n", place.join(" "));
                }
                text + &format!("work {work}\n")
            }
        }
    }
}

// The place of a fact at levels: behind the last factor everything is one.
pub fn place_at(dimensions: &[Vec<u32>], levels: &Levels, fact: &[u32]) -> Vec<u32> {
    let mut place = Vec::new();
    for (i, factors) in dimensions.iter().enumerate() {
        let level = levels[i] as usize;
        let part: u64 = factors.iter().take(level).map(|f| *f as u64).product();
        place.push(if level > factors.len() { 0 } else { (fact[i] as u64 / part) as u32 });
    }
    place
}

pub fn no_coarser(levels: &Levels, others: &Levels) -> bool {
    levels.iter().zip(others).all(|(l, m)| l <= m)
}

// All levels that there are, the first dimension slowest.
pub fn all_levels(dimensions: &[Vec<u32>]) -> Vec<Levels> {
    let mut all = vec![Vec::new()];
    for factors in dimensions {
        let next = |front: &Levels, level: u32| front.iter().copied().chain([level]).collect();
        let last = factors.len() as u32 + 1;
        all = all.iter().flat_map(|front| (0..=last).map(move |level| next(front, level))).collect();
    }
    all
}

// A plain list of facts (the place, and the amount behind it) and of kept levels. No table is ever stored, so none can drift.
pub struct Warehouse {
    pub dimensions: Vec<Vec<u32>>,
    pub facts: Vec<Vec<u32>>,
    pub kept: Vec<Levels>,
}

impl Warehouse {
    pub fn new(dimensions: Vec<Vec<u32>>) -> Warehouse {
        let finest = vec![0; dimensions.len()];
        Warehouse { dimensions, facts: Vec::new(), kept: vec![finest] }
    }

    pub fn table(&self, levels: &Levels) -> Table {
        let mut table = Table::new();
        for fact in &self.facts {
            let group = table.entry(place_at(&self.dimensions, levels, fact)).or_insert((0, 0));
            group.0 += 1;
            group.1 += fact[self.dimensions.len()] as u64;
        }
        table
    }

    // How many groups each kept table has.
    pub fn sizes(&self) -> Vec<usize> {
        self.kept.iter().map(|levels| self.table(levels).len()).collect()
    }

    pub fn missing_level(&self, levels: &Levels) -> Option<Answer> {
        let missing = (0..levels.len()).find(|i| levels[*i] as usize > self.dimensions[*i].len() + 1);
        missing.map(|i| Answer::Refused(3, i))
    }

    pub fn kept_at(&self, levels: &Levels) -> Option<usize> {
        self.kept.iter().position(|kept| kept == levels)
    }

    pub fn keep(&mut self, levels: &Levels) -> Answer {
        if let Some(i) = self.kept_at(levels) {
            return Answer::Refused(7, i);
        }
        if self.kept.len() == TABLES {
            return Answer::Refused(9, TABLES);
        }
        self.kept.push(levels.clone());
        Answer::Done
    }

    pub fn drop_table(&mut self, levels: &Levels) -> Answer {
        match self.kept_at(levels) {
            Some(0) => Answer::Refused(7, 0),
            None => Answer::Refused(7, TABLES),
            Some(i) => {
                self.kept.remove(i);
                Answer::Done
            }
        }
    }

    // The work is that of the smallest kept table from which the answer can be made. The sizes are those of the facts now there.
    pub fn ask(&self, levels: &Levels, sizes: &[usize]) -> Answer {
        let serving = self.kept.iter().zip(sizes).filter(|(kept, _)| no_coarser(kept, levels));
        let least = serving.map(|(_, size)| *size).min();
        Answer::Shown(self.table(levels), least.expect("the finest is no coarser"))
    }
}

// The first line that is not the next of the answers, or that is behind them all.
pub fn difference(text: &str, answers: &[(Deed, String)]) -> Option<String> {
    let mut lines = text.split_inclusive('\n');
    for (i, (deed, expected)) in answers.iter().enumerate() {
        for (n, line) in expected.split_inclusive('\n').enumerate() {
            let got = lines.next().unwrap_or("nothing");
            if got != line {
                return Some(format!("deed {i}, {deed:?}, line {n} of its answer\nexpected: {line}got: {got}"));
            }
        }
    }
    lines.next().map(|line| format!("behind the last answer: {line}"))
}
