// Files that are no days, or only the beginning of one: the program must say so and end with status 0 or 1.
// Usage: bad_files REPLAY EXAMPLE
mod common;

use common::{deed_out, numbers_out, run, Ended, Folder, Random};
use std::fs;
use std::path::Path;

const MOST: u32 = u32::MAX;

struct Trial {
    program: String,
    folder: Folder,
    files: usize,
}

impl Trial {
    // Ends by a signal or with another status are faults, and so is status 1 without a message.
    fn end(&mut self, what: &str, file: &Path, by_name: bool) -> Result<Ended, String> {
        self.files += 1;
        let ended = run(&self.program, file, by_name);
        match ended.status {
            Some(0) => Ok(ended),
            Some(1) if !ended.stderr.trim().is_empty() => Ok(ended),
            Some(1) => Err(format!("{what}: status 1 without a message")),
            status => Err(format!("{what}: status {status:?}, {}", ended.stderr)),
        }
    }

    // Every other file is read from standard input.
    fn file(&mut self, what: &str, bytes: &[u8]) -> Result<Ended, String> {
        let file = self.folder.write(bytes);
        let by_name = self.files % 2 == 0;
        self.end(what, &file, by_name)
    }

    fn expect(&mut self, what: &str, bytes: &[u8], stdout: &str, status: i32) -> Result<(), String> {
        let ended = self.file(what, bytes)?;
        if ended.stdout == stdout && ended.status == Some(status) {
            return Ok(());
        }
        Err(format!("{what}: expected status {status} and\n{stdout}got status {:?} and\n{}", ended.status, ended.stdout))
    }
}

fn number(bytes: &[u8]) -> usize {
    u32::from_le_bytes([bytes[0], bytes[1], bytes[2], bytes[3]]) as usize
}

// Where the deeds of the example start: behind the count and five numbers a dimension.
fn first_deed(example: &[u8]) -> usize {
    4 + 20 * number(example)
}

// Where the deeds of the example end, from the end of its dimensions on.
fn ends(example: &[u8]) -> Vec<usize> {
    let width = number(example);
    let mut ends = vec![first_deed(example)];
    let mut at = ends[0];
    while at < example.len() {
        let numbers = if example[at] < 2 { width + 1 } else { width };
        at += 1 + 4 * numbers;
        ends.push(at);
    }
    ends
}

// The text of the first so many answers: each ends with a line that is no group, and only groups have a colon.
fn answers(text: &str, count: usize) -> String {
    let mut left = count;
    let mut taken = String::new();
    for line in text.split_inclusive('\n') {
        if left == 0 {
            break;
        }
        taken += line;
        left -= !line.contains(':') as usize;
    }
    taken
}

// Cut within the dimensions they are refused; cut behind them the answers to the whole deeds stand.
fn cut_short(trial: &mut Trial, example: &[u8], text: &str) -> Result<(), String> {
    let ends = ends(example);
    for cut in 0..=example.len() {
        let what = format!("the example cut to {cut} bytes");
        let bytes = &example[..cut];
        if cut < ends[0] {
            trial.expect(&what, bytes, "refused 1 at 4\n", 0)?;
            continue;
        }
        let whole = ends.iter().filter(|end| **end <= cut).count() - 1;
        let status = !ends.contains(&cut) as i32;
        trial.expect(&what, bytes, &answers(text, whole), status)?;
    }
    Ok(())
}

// A byte above 4 is no deed: nothing is answered. Other deeds take the numbers as theirs, and may end anywhere.
fn other_first_deeds(trial: &mut Trial, example: &[u8], text: &str) -> Result<(), String> {
    let at = first_deed(example);
    for byte in 0..=255 {
        let what = format!("the example with {byte} as its first deed");
        let mut bytes = example.to_vec();
        bytes[at] = byte;
        if byte == example[at] {
            trial.expect(&what, &bytes, text, 0)?;
        } else if byte > 4 {
            trial.expect(&what, &bytes, "", 1)?;
        } else {
            trial.file(&what, &bytes)?;
        }
    }
    Ok(())
}

// The largest numbers in all dimensions, a book full of the largest amount, and all of it taken out again.
fn largest_numbers(trial: &mut Trial) -> Result<(), String> {
    let mut bytes = numbers_out(&[4, 0, 0, 0, 0, 0, 1, MOST, 0, 0, 0, 2, 65535, 65537, 0, 0, 1, 2, 0, 0, 0]);
    let mut text = String::new();
    let mut tell = |kind: u8, row: &[u32], answer: &str| {
        bytes.extend(deed_out(kind, row));
        text += answer;
    };
    let fact = [MOST; 5];
    for _ in 0..256 {
        tell(0, &fact, "done\n");
    }
    tell(0, &fact, "refused 8 at 256\n");
    tell(2, &[0, 1, 1, 1], "done\n");
    // 256 times the largest amount
    tell(4, &[0; 4], "4294967295 4294967295 4294967295 4294967295: 256 1099511627520\nwork 1\n");
    tell(4, &[0, 1, 1, 1], "4294967295 1 65537 2147483647: 256 1099511627520\nwork 1\n");
    tell(4, &[1, 2, 2, 2], "0 0 1 0: 256 1099511627520\nwork 1\n");
    tell(4, &[MOST; 4], "refused 3 at 0\n");
    tell(2, &[1, 2, 3, MOST], "refused 3 at 3\n");
    tell(3, &[1, 2, MOST, MOST], "refused 3 at 2\n");
    for _ in 0..256 {
        tell(1, &fact, "done\n");
    }
    tell(1, &fact, "refused 6 at 0\n");
    tell(4, &[0; 4], "work 0\n");
    trial.expect("the largest numbers", &bytes, &text, 0)
}

// Bytes by chance: alone, and behind the example's dimensions, where small bytes make many of them deeds.
fn chance_bytes(trial: &mut Trial, example: &[u8]) -> Result<(), String> {
    let mut random = Random(0x2545_f491_4f6c_dd1d);
    for i in 0..200 {
        let behind = i % 2 == 0;
        let most = if i % 4 < 2 { 256 } else { 5 };
        let mut bytes = if behind { example[..first_deed(example)].to_vec() } else { Vec::new() };
        bytes.extend((0..random.below(400)).map(|_| random.below(most) as u8));
        trial.file(&format!("bytes by chance, file {i}"), &bytes)?;
    }
    Ok(())
}

// A name at which there is nothing, and a folder.
fn no_files(trial: &mut Trial) -> Result<(), String> {
    let file = trial.folder.write(&[]);
    let folder = file.parent().expect("a file is in a folder");
    for (what, path) in [("no file", folder.join("none")), ("a folder", folder.to_path_buf())] {
        let ended = trial.end(what, &path, true)?;
        if ended.status != Some(1) || !ended.stdout.is_empty() {
            return Err(format!("{what}: status {:?}, {}", ended.status, ended.stdout));
        }
    }
    Ok(())
}

fn try_all(program: String, example: &[u8]) -> Result<usize, String> {
    let mut trial = Trial { program, folder: Folder::new("bad-files"), files: 0 };
    let whole = trial.file("the example", example)?;
    if whole.status != Some(0) {
        return Err(format!("the example: status {:?}", whole.status));
    }
    trial.expect("the empty file", &[], "refused 1 at 4\n", 0)?;
    cut_short(&mut trial, example, &whole.stdout)?;
    other_first_deeds(&mut trial, example, &whole.stdout)?;
    largest_numbers(&mut trial)?;
    chance_bytes(&mut trial, example)?;
    no_files(&mut trial)?;
    Ok(trial.files)
}

fn main() {
    let arguments: Vec<String> = std::env::args().collect();
    let [_, program, example] = &arguments[..] else { panic!("usage: bad_files REPLAY EXAMPLE") };
    let example = fs::read(example).expect("the example file");
    match try_all(program.clone(), &example) {
        Ok(files) => println!("bad files: {files} files, each ended with status 0, or 1 and a message"),
        Err(fault) => {
            eprintln!("bad files: {fault}");
            std::process::exit(1);
        }
    }
}
