// Random days, answered by going through all facts for every question, compared with what replay prints.
// Usage: days REPLAY
mod common;

use common::{deed_out, difference, numbers_out, run, Answer, Deed, Folder, Levels, Random, Warehouse};
use common::{ASK, DELETE, DROP, INSERT, KEEP};

const DAYS: u32 = 64;
const BOOK: usize = 256;
const GROUPS: usize = 64;

// Every kept table is counted again for every fact that comes, so that any of them may be the one that is full.
fn insert(house: &mut Warehouse, fact: &[u32]) -> Answer {
    if house.facts.len() == BOOK {
        return Answer::Refused(8, BOOK);
    }
    house.facts.push(fact.to_vec());
    match house.sizes().iter().position(|size| *size > GROUPS) {
        None => Answer::Done,
        Some(full) => {
            house.facts.pop();
            Answer::Refused(8, full)
        }
    }
}

fn delete(house: &mut Warehouse, fact: &[u32]) -> Answer {
    match house.facts.iter().position(|other| other == fact) {
        None => Answer::Refused(6, 0),
        Some(i) => {
            house.facts.swap_remove(i);
            Answer::Done
        }
    }
}

fn answer(house: &mut Warehouse, deed: &Deed) -> Answer {
    let numbers = &deed.numbers;
    if deed.kind >= KEEP {
        if let Some(refused) = house.missing_level(numbers) {
            return refused;
        }
    }
    match deed.kind {
        INSERT => insert(house, numbers),
        DELETE => delete(house, numbers),
        KEEP => house.keep(numbers),
        DROP => house.drop_table(numbers),
        _ => house.ask(numbers, &house.sizes()),
    }
}

// What a day is like: how many deeds, how far its places spread, and in a hundred deeds how many are of each kind.
struct Style {
    deeds: u32,
    spread: u32,
    kinds: [u32; 5],
}

// Mixed days; days that fill the book; days that fill the finest table; days with many tables.
fn style(random: &mut Random, day: u32, width: usize) -> Style {
    let deeds = 200 + random.below(400);
    match day % 4 {
        0 => Style { deeds, spread: 2 + random.below(12), kinds: [40, 20, 12, 8, 20] },
        1 => {
            // about as many places as the finest table has room for, so that the book is full first, or both are
            let most = [70, 8, 4, 3][width - 1];
            Style { deeds: 500 + random.below(100), spread: most - random.below(2), kinds: [80, 4, 4, 2, 10] }
        }
        2 => {
            let spread = [100, 5000, u32::MAX][random.below(3) as usize];
            Style { deeds, spread, kinds: [55, 15, 8, 5, 17] }
        }
        _ => Style { deeds, spread: 4 + random.below(30), kinds: [22, 10, 40, 6, 22] },
    }
}

// Small factors mostly, now and then a large one, as long as the product stays below 2^32.
fn draw_factors(random: &mut Random, fewest: u32) -> Vec<u32> {
    let mut factors = Vec::new();
    let mut product: u64 = 1;
    for _ in 0..fewest + random.below(5 - fewest) {
        let factor = if random.below(12) == 0 { [1000, 65537, 1 << 31][random.below(3) as usize] } else { 1 + random.below(5) };
        let fits = product * (factor as u64) < 1 << 32;
        factors.push(if fits { factor } else { 1 });
        product *= *factors.last().unwrap() as u64;
    }
    factors
}

fn draw_dimensions(random: &mut Random, day: u32) -> Vec<Vec<u32>> {
    // sixteen tables want more than sixteen rows of levels
    let many = day % 4 == 3;
    let width = if many { 2 + random.below(3) } else { 1 + random.below(4) };
    (0..width).map(|_| draw_factors(random, if many { 2 } else { 0 })).collect()
}

// The numbers behind the factors are not read, so that anything may stand there.
fn dimensions_out(random: &mut Random, dimensions: &[Vec<u32>]) -> Vec<u32> {
    let mut row = vec![dimensions.len() as u32];
    for factors in dimensions {
        row.push(factors.len() as u32);
        row.extend(factors);
        row.extend((factors.len()..4).map(|_| [0, random.number()][random.below(2) as usize]));
    }
    row
}

fn draw_fact(random: &mut Random, width: usize, spread: u32) -> Vec<u32> {
    let mut fact: Vec<u32> = (0..width).map(|_| random.below(spread)).collect();
    fact.push(if random.below(20) == 0 { random.number() } else { random.below(6) });
    fact
}

// One row of levels in twelve has one that is not there.
fn draw_levels(random: &mut Random, dimensions: &[Vec<u32>]) -> Levels {
    let mut levels: Levels = dimensions.iter().map(|factors| random.below(factors.len() as u32 + 2)).collect();
    if random.below(12) == 0 {
        let i = random.below(levels.len() as u32) as usize;
        let behind = dimensions[i].len() as u32 + 2;
        levels[i] = [behind, behind + random.below(3), u32::MAX][random.below(3) as usize];
    }
    levels
}

fn draw_kind(random: &mut Random, kinds: &[u32; 5]) -> u8 {
    let mut drawn = random.below(100);
    let mut kind = 0;
    while drawn >= kinds[kind] {
        drawn -= kinds[kind];
        kind += 1;
    }
    kind as u8
}

// Half of the deletes and drops are of what is there.
fn draw_deed(random: &mut Random, style: &Style, house: &Warehouse) -> Deed {
    let kind = draw_kind(random, &style.kinds);
    let from = if kind == DELETE { &house.facts } else { &house.kept };
    let numbers = if (kind == DELETE || kind == DROP) && random.below(2) == 0 && !from.is_empty() {
        from[random.below(from.len() as u32) as usize].clone()
    } else if kind <= DELETE {
        draw_fact(random, house.dimensions.len(), style.spread)
    } else {
        draw_levels(random, &house.dimensions)
    };
    Deed { kind, numbers }
}

// What was compared; of refusal 8 also how often the book was full.
#[derive(Default)]
struct Compared {
    days: usize,
    deeds: usize,
    shown: usize,
    refusals: [usize; 11],
    full_book: usize,
    dimension_files: usize,
}

impl Compared {
    fn note(&mut self, answer: &Answer) {
        self.deeds += 1;
        match answer {
            Answer::Done => {}
            Answer::Shown(..) => self.shown += 1,
            Answer::Refused(number, place) => {
                self.refusals[*number] += 1;
                self.full_book += (*number == 8 && *place == BOOK) as usize;
            }
        }
    }

    // Days that never meet a refusal would not test it.
    fn met_all(&self) -> bool {
        let full_table = self.refusals[8] - self.full_book;
        [1, 3, 6, 7, 9].iter().all(|number| self.refusals[*number] > 0) && self.full_book > 0 && full_table > 0
    }

    fn line(&self) -> String {
        let r = &self.refusals;
        format!(
            "days: {} days, {} deeds, {} tables shown, {} files of dimensions; \
             refusals 1: {}, 3: {}, 6: {}, 7: {}, 8: {} by the book and {} by a table, 9: {}",
            self.days, self.deeds, self.shown, self.dimension_files, r[1], r[3], r[6], r[7], self.full_book, r[8] - self.full_book, r[9]
        )
    }
}

fn compare_day(random: &mut Random, program: &str, folder: &Folder, day: u32, compared: &mut Compared) -> Result<(), String> {
    let dimensions = draw_dimensions(random, day);
    let style = style(random, day, dimensions.len());
    let mut bytes = numbers_out(&dimensions_out(random, &dimensions));
    let mut house = Warehouse::new(dimensions);
    let mut answers = Vec::new();
    for _ in 0..style.deeds {
        let deed = draw_deed(random, &style, &house);
        bytes.extend(deed_out(deed.kind, &deed.numbers));
        let answer = answer(&mut house, &deed);
        compared.note(&answer);
        answers.push((deed, answer.text()));
    }
    compared.days += 1;
    let ended = run(program, &folder.write(&bytes), day % 3 > 0);
    if let Some(difference) = difference(&ended.stdout, &answers) {
        return Err(format!("day {day} of dimensions {:?}: {difference}", house.dimensions));
    }
    if ended.status != Some(0) {
        return Err(format!("day {day}: status {:?}, {}", ended.status, ended.stderr));
    }
    Ok(())
}

// Rows of dimensions, and the place at which they are refused, or none.
fn dimension_rows() -> Vec<(Vec<u32>, Option<usize>)> {
    let good = [1, 7, 0, 0, 0];
    let rows: [(u32, &[[u32; 5]], Option<usize>); 17] = [
        (0, &[], Some(4)),
        (5, &[good, good, good, good, good], Some(4)),
        (u32::MAX, &[good], Some(4)),
        (2, &[good], Some(4)),
        (1, &[[5, 1, 1, 1, 1]], Some(0)),
        (1, &[[u32::MAX, 1, 1, 1, 1]], Some(0)),
        (2, &[good, [2, 3, 0, 1, 1]], Some(1)),
        (3, &[good, good, [4, 2, 2, 2, 0]], Some(2)),
        (4, &[good, good, good, [2, 65536, 65536, 1, 1]], Some(3)),
        (1, &[[4, u32::MAX, u32::MAX, u32::MAX, u32::MAX]], Some(0)),
        // products that would look small, or be 0, if only their low 32 or 64 bits were looked at
        (1, &[[2, 65537, 65537, 1, 1]], Some(0)),
        (1, &[[3, 3, 1 << 31, 2863311531, 1]], Some(0)),
        (1, &[[4, 65536, 65536, 65536, 65536]], Some(0)),
        (3, &[good, [5, 1, 1, 1, 1], [1, 0, 0, 0, 0]], Some(1)),
        (1, &[[1, u32::MAX, 0, 0, 0]], None),
        (2, &[[2, 65535, 65537, 0, 0], [0, 0, 0, 0, 0]], None),
        (4, &[good, [0, 9, 9, 9, 9], [4, 1, 1, 1, 1], good], None),
    ];
    let whole = |(count, sides, place): (u32, &[[u32; 5]], Option<usize>)| ([vec![count], sides.concat()].concat(), place);
    rows.into_iter().map(whole).collect()
}

// Behind refused dimensions no deed is read; behind good ones a question at the finest levels is answered.
fn compare_dimensions(program: &str, folder: &Folder, compared: &mut Compared) -> Result<(), String> {
    for (row, place) in dimension_rows() {
        let mut bytes = numbers_out(&row);
        let expected = match place {
            None => {
                bytes.extend(deed_out(ASK, &vec![0; row[0] as usize]));
                "work 0\n".to_string()
            }
            Some(place) => {
                compared.refusals[1] += 1;
                // too short for the dimension that is missing in one row, and no deed
                bytes.extend([9, 9, 9]);
                Answer::Refused(1, place).text()
            }
        };
        compared.dimension_files += 1;
        let ended = run(program, &folder.write(&bytes), true);
        if ended.stdout != expected || ended.status != Some(0) {
            return Err(format!("dimensions {row:?}: expected {expected:?}, got {:?}, status {:?}", ended.stdout, ended.status));
        }
    }
    Ok(())
}

fn compare_all(program: &str) -> Result<Compared, String> {
    let folder = Folder::new("days");
    let mut random = Random(0x9e37_79b9_7f4a_7c15);
    let mut compared = Compared::default();
    for day in 0..DAYS {
        compare_day(&mut random, program, &folder, day, &mut compared)?;
    }
    compare_dimensions(program, &folder, &mut compared)?;
    if !compared.met_all() {
        return Err(format!("a refusal was never met: {}", compared.line()));
    }
    Ok(compared)
}

fn main() {
    let program = std::env::args().nth(1).expect("usage: days REPLAY");
    match compare_all(&program) {
        Ok(compared) => println!("{}", compared.line()),
        Err(difference) => {
            eprintln!("days: {difference}");
            std::process::exit(1);
        }
    }
}
