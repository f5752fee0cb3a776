// What inserts, deletes and questions cost in replay, beside the same in SQLite in memory, where triggers keep the tables.
// Usage: warehouse REPLAY SQLITE FOLDER
// Costs are processor time, the least of several runs: for replay that of whole runs, where two files differ in the deeds measured
// alone, since it tells no time; for SQLite that of one prepared statement, which it tells itself.
#[path = "../tests/common.rs"]
mod common;
mod sql;

use common::{deed_out, dimensions_row, no_coarser, numbers_out, Levels, Random, Warehouse, ASK, DELETE, INSERT, KEEP};
use sql::{Schema, Source};
use std::fs::{self, File};
use std::process::{Command, Stdio};

const FACTS: usize = 65536;
const RUNS: usize = 5;

// Thirty branches in ten towns and two counties, four weeks, four shelves: 3,360 places.
const NUMBERS: [u32; 3] = [30, 28, 4];

fn dimensions() -> Vec<Vec<u32>> {
    vec![vec![3, 5], vec![7, 2], vec![2]]
}

// The tables kept beside the finest, of 4 to 1,120 groups.
const KEPT: [[u32; 3]; 11] =
    [[1, 0, 0], [0, 0, 2], [0, 1, 0], [2, 0, 0], [1, 1, 0], [0, 2, 1], [1, 1, 1], [3, 0, 2], [1, 3, 1], [2, 1, 2], [3, 3, 0]];

// Questions with few lines: by county, fortnight and shelf; by week, for which the groups of the finest table are in no order; and
// one at the levels of a kept table.
const QUESTIONS: [[u32; 3]; 3] = [[2, 2, 1], [3, 1, 2], [1, 3, 1]];

// What is measured: inserts into an empty book; or with all facts in it deletes, by index, or a question.
enum Work {
    Insert,
    Delete(Vec<usize>),
    Ask(Question),
}

struct Question {
    levels: Levels,
    // how often replay is asked, and SQLite, which takes longer
    times: [usize; 2],
    // what SQLite does: it goes through all facts, and it makes lines of text as replay does
    facts: bool,
    text: bool,
}

struct Line {
    name: String,
    // kept beside the finest
    tables: usize,
    work: Work,
}

impl Line {
    // How many deeds are measured in replay, and in SQLite.
    fn count(&self) -> [usize; 2] {
        match &self.work {
            Work::Insert => [FACTS; 2],
            Work::Delete(facts) => [facts.len(); 2],
            Work::Ask(question) => question.times,
        }
    }
}

struct Bench {
    replay: String,
    sqlite: String,
    folder: String,
    house: Warehouse,
    sizes: Vec<usize>,
}

// Amounts are many, so that few facts are equal and a delete has to find the one that is meant.
fn full_house() -> Warehouse {
    let mut random = Random(0x9e37_79b9_7f4a_7c15);
    let mut house = Warehouse::new(dimensions());
    house.kept.extend(KEPT.iter().map(|levels| levels.to_vec()));
    for _ in 0..FACTS {
        let mut fact: Vec<u32> = NUMBERS.iter().map(|most| random.below(*most)).collect();
        fact.push(1 + random.below(1000));
        house.facts.push(fact);
    }
    house
}

// The book is searched from its newest fact on, so that the age of what is deleted counts.
fn delete_lines() -> Vec<Line> {
    let back = |age: usize| (FACTS - 1024 - age..FACTS - age).rev().collect();
    let mut random = Random(0x2545_f491_4f6c_dd1d);
    let mut any: Vec<usize> = (0..FACTS).collect();
    (1..FACTS).for_each(|i| any.swap(i, random.below(i as u32 + 1) as usize));
    any.truncate(2048);
    let ages: [(&str, Vec<usize>); 6] = [
        ("the newest", (FACTS / 2..FACTS).rev().collect()),
        ("a quarter back", back(FACTS / 4)),
        ("half back", back(FACTS / 2)),
        ("three quarters back", back(FACTS / 4 * 3)),
        ("the oldest", (0..1024).collect()),
        ("of any age", any),
    ];
    let line = |(age, facts)| Line { name: format!("delete, {age}"), tables: KEPT.len(), work: Work::Delete(facts) };
    ages.into_iter().map(line).collect()
}

impl Bench {
    fn kept(&self, tables: usize) -> &[Levels] {
        &self.house.kept[..tables + 1]
    }

    // The smallest kept table that is no coarser.
    fn source(&self, levels: &Levels, tables: usize) -> usize {
        let serving = (0..=tables).filter(|k| no_coarser(&self.house.kept[*k], levels));
        serving.min_by_key(|k| self.sizes[*k]).expect("the finest is no coarser")
    }

    fn ask_line(&self, levels: &[u32], tables: usize, times: [usize; 2], text: bool) -> Line {
        let levels = levels.to_vec();
        let (lines, groups) = (self.house.table(&levels).len(), self.sizes[self.source(&levels, tables)]);
        let name = format!("question {levels:?}, {lines} lines of {groups} groups{}", if text { ", both as text" } else { "" });
        Line { name, tables, work: Work::Ask(Question { levels, times, facts: false, text }) }
    }

    fn ask_facts(&self, levels: &[u32], times: [usize; 2]) -> Line {
        let name = format!("question {levels:?}, in SQLite of {FACTS} facts");
        Line { name, tables: 0, work: Work::Ask(Question { levels: levels.to_vec(), times, facts: true, text: false }) }
    }

    // Inserts come first for each number of tables.
    fn lines(&self) -> Vec<Line> {
        let most = KEPT.len();
        let insert = |tables, name: &str| Line { name: name.to_string(), tables, work: Work::Insert };
        let mut lines = vec![insert(most, "insert, 11 tables and the finest"), insert(0, "insert, the finest table alone")];
        lines.extend(delete_lines());
        lines.extend(QUESTIONS.iter().map(|levels| self.ask_line(levels, most, [40000, 4000], false)));
        lines.extend(QUESTIONS.iter().map(|levels| self.ask_line(levels, most, [40000, 4000], true)));
        lines.extend(QUESTIONS.iter().map(|levels| self.ask_line(levels, 0, [2000, 200], false)));
        lines.extend(QUESTIONS.iter().map(|levels| self.ask_facts(levels, [2000, 4])));
        lines
    }
}

// The deeds of files for replay.
impl Bench {
    fn before(&self, line: &Line) -> Vec<u8> {
        let mut bytes = numbers_out(&dimensions_row(&self.house.dimensions));
        bytes.extend(self.kept(line.tables)[1..].iter().flat_map(|levels| deed_out(KEEP, levels)));
        if !matches!(line.work, Work::Insert) {
            bytes.extend(self.inserts());
        }
        bytes
    }

    fn inserts(&self) -> Vec<u8> {
        self.house.facts.iter().flat_map(|fact| deed_out(INSERT, fact)).collect()
    }

    fn measured(&self, line: &Line) -> Vec<u8> {
        match &line.work {
            Work::Insert => self.inserts(),
            Work::Delete(facts) => facts.iter().flat_map(|i| deed_out(DELETE, &self.house.facts[*i])).collect(),
            Work::Ask(question) => deed_out(ASK, &question.levels).repeat(question.times[0]),
        }
    }

    // The questions by which both are compared: all kept tables, or the one that is measured.
    fn compared(&self, line: &Line) -> Vec<Levels> {
        match &line.work {
            Work::Ask(question) => vec![question.levels.clone()],
            _ => self.kept(line.tables).to_vec(),
        }
    }

    fn replay_on(&self, bytes: &[u8]) -> Command {
        let file = format!("{}/day.bin", self.folder);
        fs::write(&file, bytes).expect("the file is written");
        let mut command = Command::new(&self.replay);
        command.args(["--standard", &file]);
        command
    }

    // The least time of a run, with all that the program prints thrown away.
    fn replay_time(&self, bytes: &[u8]) -> f64 {
        let mut command = self.replay_on(bytes);
        command.stdout(Stdio::null());
        let mut run = || {
            let start = processor_time();
            assert!(command.status().expect("replay starts").success());
            processor_time() - start
        };
        (0..RUNS).map(|_| run()).fold(f64::MAX, f64::min)
    }

    fn replay_cost(&self, line: &Line) -> f64 {
        let mut bytes = self.before(line);
        let before = self.replay_time(&bytes);
        bytes.extend(self.measured(line));
        (self.replay_time(&bytes) - before) / line.count()[0] as f64
    }

    // The groups that replay prints for the questions by which both are compared.
    fn replay_groups(&self, line: &Line) -> String {
        let mut bytes = self.before(line);
        if matches!(line.work, Work::Insert | Work::Delete(_)) {
            bytes.extend(self.measured(line));
        }
        bytes.extend(self.compared(line).iter().flat_map(|levels| deed_out(ASK, levels)));
        let output = self.replay_on(&bytes).output().expect("replay starts");
        let text = String::from_utf8(output.stdout).expect("text");
        assert!(!text.contains("refused"), "replay refused a deed: {}", line.name);
        text.split_inclusive('\n').filter(|line| line.contains(':')).collect()
    }
}

// The script for SQLite: one for each number of tables, which all lines with so many share.
impl Bench {
    // Facts as rows of a file.
    fn rows(&self, name: &str, facts: &[usize]) -> String {
        let row = |(n, i): (usize, &usize)| {
            let numbers: Vec<String> = self.house.facts[*i].iter().map(u32::to_string).collect();
            format!("{n},{}\n", numbers.join(","))
        };
        let file = format!("{}/{name}.csv", self.folder);
        fs::write(&file, facts.iter().enumerate().map(row).collect::<String>()).expect("the file is written");
        file
    }

    fn script(&self, lines: &[Line], tables: usize) -> String {
        let schema = Schema { dimensions: &self.house.dimensions, kept: self.kept(tables) };
        let arrived = self.rows("arrived", &(0..FACTS).collect::<Vec<usize>>());
        let pragmas = ["journal_mode = MEMORY", "synchronous = OFF", "temp_store = MEMORY"];
        let mut text = ".bail on\n".to_string();
        text.extend(pragmas.iter().map(|pragma| format!("PRAGMA {pragma};\n")));
        text += &schema.load("arrived", &arrived);
        text += &schema.create();
        for (n, line) in lines.iter().enumerate().filter(|(_, line)| line.tables == tables) {
            text += &self.step(&schema, n, line);
        }
        text
    }

    // One line: what is timed, and then the rows that are compared. Deletes are taken back.
    fn step(&self, schema: &Schema, n: usize, line: &Line) -> String {
        let timed = |statement: &str| format!(".print @{n}\n.timer on\n{statement}.timer off\n");
        let rows = |k: usize| schema.lines(&schema.kept[k], &format!("SELECT * FROM table_{k}")) + ";\n";
        let tables: String = (0..schema.kept.len()).map(rows).collect();
        match &line.work {
            Work::Insert => timed(&schema.insert_all("arrived")) + &tables,
            Work::Delete(facts) => {
                let name = format!("left_{n}");
                let load = schema.load(&name, &self.rows(&name, facts));
                load + "BEGIN;\n" + &timed(&schema.delete_all(&name)) + &tables + "ROLLBACK;\n"
            }
            Work::Ask(question) => {
                let source =
                    if question.facts { Source::Facts } else { Source::Table(self.source(&question.levels, line.tables)) };
                let query = schema.question(&question.levels, source);
                let lines = schema.lines(&question.levels, &query);
                let view = format!("asked_{n}");
                let asks = format!("INSERT INTO {view} SELECT id FROM arrived LIMIT {};\n", question.times[1]);
                schema.done_by(&view, if question.text { &lines } else { &query }) + &timed(&asks) + &lines + ";\n"
            }
        }
    }

    fn run_sqlite(&self, script: &str) -> String {
        let file = format!("{}/warehouse.sql", self.folder);
        fs::write(&file, script).expect("the file is written");
        let input = File::open(&file).expect("the file that was written");
        let output = Command::new(&self.sqlite).arg(":memory:").stdin(input).output().expect("SQLite starts");
        assert!(output.status.success(), "SQLite: {}", String::from_utf8_lossy(&output.stderr));
        String::from_utf8(output.stdout).expect("text")
    }
}

// Of each line that a script has: seconds in all, and the rows that are compared.
fn told(text: &str) -> Vec<(usize, f64, String)> {
    let section = |section: &str| {
        let (n, rest) = section.split_once('\n').expect("a line behind the number");
        let (time, rows) = rest.split_once('\n').expect("a line of times");
        let words: Vec<&str> = time.split_whitespace().collect();
        let ["Run", "Time:", "real", _, "user", user, "sys", system] = words[..] else { panic!("not a time: {time}") };
        let seconds: f64 = [user, system].iter().map(|word| word.parse::<f64>().expect("seconds")).sum();
        (n.parse().expect("a number"), seconds, rows.to_string())
    };
    text.split('@').skip(1).map(section).collect()
}

#[repr(C)]
struct Usage {
    user: [i64; 2],
    system: [i64; 2],
    others: [i64; 14],
}

extern "C" {
    fn getrusage(who: i32, usage: *mut Usage) -> i32;
}

// Seconds that all ended children took.
fn processor_time() -> f64 {
    let mut usage = Usage { user: [0; 2], system: [0; 2], others: [0; 14] };
    assert_eq!(unsafe { getrusage(-1, &mut usage) }, 0);
    [usage.user, usage.system].iter().map(|[seconds, millionths]| *seconds as f64 + *millionths as f64 / 1e6).sum()
}

// The least time of each line in SQLite; the first run is compared with replay, row by row.
fn sqlite_costs(bench: &Bench, lines: &[Line]) -> Vec<f64> {
    let mut least = vec![f64::MAX; lines.len()];
    for tables in [KEPT.len(), 0] {
        let script = bench.script(lines, tables);
        for run in 0..RUNS {
            for (n, seconds, rows) in told(&bench.run_sqlite(&script)) {
                let line = &lines[n];
                assert!(run > 0 || rows == bench.replay_groups(line), "replay and SQLite differ: {}", line.name);
                least[n] = least[n].min(seconds / line.count()[1] as f64);
            }
        }
    }
    least
}

fn main() {
    let arguments: Vec<String> = std::env::args().collect();
    let [_, replay, sqlite, folder] = &arguments[..] else { panic!("usage: warehouse REPLAY SQLITE FOLDER") };
    let house = full_house();
    let sizes = house.sizes();
    let bench = Bench { replay: replay.clone(), sqlite: sqlite.clone(), folder: folder.clone(), house, sizes };
    let lines = bench.lines();
    let in_sqlite = sqlite_costs(&bench, &lines);
    println!("{FACTS} facts in {} groups; microseconds of processor time, the least of {RUNS} runs", bench.sizes[0]);
    println!("{:<58} {:>9} {:>9} {:>15}", "", "replay", "SQLite", "SQLite / replay");
    for (line, sqlite) in lines.iter().zip(in_sqlite) {
        let replay = bench.replay_cost(line);
        println!("{:<58} {:>9.2} {:>9.2} {:>15.2}", line.name, replay * 1e6, sqlite * 1e6, sqlite / replay);
    }
}
