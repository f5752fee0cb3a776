// Days that fill the standard room, 65,536 facts and 4,096 groups a table, compared with a plain count over all facts.
// Usage: standard REPLAY
mod common;

use common::{all_levels, deed_out, difference, dimensions_row, numbers_out, run_with};
use common::{Answer, Deed, Folder, Levels, Random, Warehouse};
use common::{ASK, DELETE, DROP, INSERT, KEEP, TABLES};
use std::collections::{BTreeMap, BTreeSet};

const BOOK: usize = 65536;
const GROUPS: usize = 4096;

// Dimensions, and the numbers that facts have in each.
struct World {
    dimensions: Vec<Vec<u32>>,
    numbers: Vec<Vec<u32>>,
}

// Both have more places than a table has room for, and tables of many sizes. The first has four dimensions and small numbers, and
// about half of its places are used; the second has numbers up to 2^32, and few of its places are.
fn worlds() -> [World; 2] {
    let below = |most: u32, apart: u32| (0..most).map(|i| i * apart).collect();
    [
        World {
            dimensions: vec![vec![4, 3], vec![7], vec![], vec![]],
            numbers: vec![below(24, 1), below(30, 1), below(6, 1), below(2, 1)],
        },
        World {
            dimensions: vec![vec![1 << 27, 4], vec![5000, 4], vec![3]],
            numbers: vec![below(49, 0x0555_5555), below(100, 1234), below(7, 1)],
        },
    ]
}

// The deeds of a day and their answers. How many facts each place has is counted along, since facts are too many to be gone through
// for each that comes.
struct Day {
    random: Random,
    numbers: Vec<Vec<u32>>,
    house: Warehouse,
    places: BTreeMap<Vec<u32>, usize>,
    bytes: Vec<u8>,
    answers: Vec<(Deed, String)>,
    questions: usize,
    refusals: BTreeSet<(usize, usize)>,
}

impl Day {
    fn new(world: World, seed: u64) -> Day {
        Day {
            random: Random(seed),
            numbers: world.numbers,
            bytes: numbers_out(&dimensions_row(&world.dimensions)),
            house: Warehouse::new(world.dimensions),
            places: BTreeMap::new(),
            answers: Vec::new(),
            questions: 0,
            refusals: BTreeSet::new(),
        }
    }

    fn tell(&mut self, kind: u8, numbers: &[u32], answer: Answer) {
        self.bytes.extend(deed_out(kind, numbers));
        self.answers.push((Deed { kind, numbers: numbers.to_vec() }, answer.text()));
        if let Answer::Refused(number, place) = answer {
            self.refusals.insert((number, place));
        }
    }

    fn draw_place(&mut self) -> Vec<u32> {
        let random = &mut self.random;
        self.numbers.iter().map(|numbers| numbers[random.below(numbers.len() as u32) as usize]).collect()
    }

    fn place_there(&mut self) -> Vec<u32> {
        let i = self.random.below(self.house.facts.len() as u32) as usize;
        self.house.facts[i][..self.numbers.len()].to_vec()
    }

    fn new_place(&mut self) -> Vec<u32> {
        loop {
            let place = self.draw_place();
            if !self.places.contains_key(&place) {
                return place;
            }
        }
    }

    // A coarser table has no more groups, so that only the finest can be the one that is full.
    fn insert_at(&mut self, place: Vec<u32>) {
        let amount = if self.random.below(20) == 0 { self.random.number() } else { self.random.below(1000) };
        let fact = [&place[..], &[amount]].concat();
        let answer = if self.house.facts.len() == BOOK {
            Answer::Refused(8, BOOK)
        } else if self.places.len() == GROUPS && !self.places.contains_key(&place) {
            Answer::Refused(8, 0)
        } else {
            self.house.facts.push(fact.clone());
            *self.places.entry(place).or_insert(0) += 1;
            Answer::Done
        };
        self.tell(INSERT, &fact, answer);
    }

    fn delete_at(&mut self, i: usize) {
        let fact = self.house.facts.remove(i);
        let place = &fact[..self.numbers.len()];
        let left = self.places[place] - 1;
        if left == 0 {
            self.places.remove(place);
        } else {
            self.places.insert(place.to_vec(), left);
        }
        self.tell(DELETE, &fact, Answer::Done);
    }

    // An amount that no fact has.
    fn delete_nothing(&mut self, place: Vec<u32>) {
        let fact = [&place[..], &[1_000_000]].concat();
        assert!(!self.house.facts.contains(&fact), "the test's own fault: {fact:?} is there");
        self.tell(DELETE, &fact, Answer::Refused(6, 0));
    }

    fn keep(&mut self, levels: &Levels) {
        let answer = self.house.keep(levels);
        self.tell(KEEP, levels, answer);
    }

    fn drop_table(&mut self, levels: &Levels) {
        let answer = self.house.drop_table(levels);
        self.tell(DROP, levels, answer);
    }

    // The sizes of kept tables are counted once for all questions that no fact comes or goes between.
    fn ask_each(&mut self, questions: &[Levels]) {
        let sizes = self.house.sizes();
        for levels in questions {
            let answer = self.house.ask(levels, &sizes);
            self.tell(ASK, levels, answer);
        }
        self.questions += questions.len();
    }

    // A table that had drifted would be seen, since each is asked for.
    fn ask_kept(&mut self) {
        let kept = self.house.kept.clone();
        self.ask_each(&kept);
    }
}

// All levels but the finest, in an order by chance.
fn shuffled_levels(day: &mut Day) -> Vec<Levels> {
    let mut all = all_levels(&day.house.dimensions).split_off(1);
    for i in (1..all.len()).rev() {
        all.swap(i, day.random.below(i as u32 + 1) as usize);
    }
    all
}

// Every group of the finest table has a fact; then a new place is refused, and one that is there is not.
fn fill_finest(day: &mut Day) {
    while day.places.len() < GROUPS {
        let place = day.new_place();
        day.insert_at(place);
    }
    for _ in 0..3 {
        let (new, there) = (day.new_place(), day.place_there());
        day.insert_at(new);
        day.insert_at(there);
    }
}

// In a full book no place matters.
fn fill_book(day: &mut Day) {
    while day.house.facts.len() < BOOK {
        let place = day.place_there();
        day.insert_at(place);
    }
    let (new, there) = (day.new_place(), day.place_there());
    day.insert_at(new);
    day.insert_at(there);
}

// Facts of any age, all facts of one place, and facts that are not there.
fn delete_some(day: &mut Day) {
    for _ in 0..1000 {
        let i = day.random.below(day.house.facts.len() as u32) as usize;
        day.delete_at(i);
    }
    let place = day.place_there();
    while let Some(i) = day.house.facts.iter().rposition(|fact| fact.starts_with(&place)) {
        day.delete_at(i);
    }
    day.delete_nothing(place);
    let there = day.place_there();
    day.delete_nothing(there);
}

fn delete_newest(day: &mut Day, left: usize) {
    while day.house.facts.len() > left {
        day.delete_at(day.house.facts.len() - 1);
    }
}

// Tables kept of no fact, of some, and of a full book.
fn live(day: &mut Day) {
    let all = shuffled_levels(day);
    let finest = vec![0; day.numbers.len()];
    all[..5].iter().for_each(|levels| day.keep(levels));
    fill_finest(day);
    all[5..10].iter().for_each(|levels| day.keep(levels));
    fill_book(day);
    all[10..TABLES].iter().for_each(|levels| day.keep(levels));
    all[..TABLES - 1].iter().for_each(|levels| day.keep(levels));
    day.keep(&finest);
    day.ask_each(&[&[finest.clone()], &all[..]].concat());
    delete_some(day);
    fill_finest(day);
    day.ask_kept();
    day.drop_table(&finest);
    all[3..8].iter().for_each(|levels| day.drop_table(levels));
    day.drop_table(&all[3]);
    day.ask_each(&all[..12]);
    all[16..20].iter().for_each(|levels| day.keep(levels));
    fill_book(day);
    delete_newest(day, 3000);
    day.ask_kept();
    delete_newest(day, 0);
    day.ask_kept();
}

// Refusals that no deed met would not be tested, nor the work where tables have few sizes.
fn met_all(day: &Day) -> Result<(), String> {
    let tables = (0..=TABLES).map(|i| (7, i));
    let wanted: BTreeSet<_> = tables.chain([(6, 0), (8, 0), (8, BOOK), (9, TABLES)]).collect();
    if day.refusals != wanted {
        return Err(format!("refusals met are {:?}", day.refusals));
    }
    let last_lines = day.answers.iter().filter_map(|(_, text)| text.lines().last());
    let works: BTreeSet<&str> = last_lines.filter(|line| line.starts_with("work")).collect();
    if works.len() < 12 {
        return Err(format!("the works are {works:?}"));
    }
    Ok(())
}

fn compare(program: &str, folder: &Folder, day: &Day, by_name: bool) -> Result<(), String> {
    met_all(day)?;
    let ended = run_with(program, &["--standard"], &folder.write(&day.bytes), by_name);
    if let Some(difference) = difference(&ended.stdout, &day.answers) {
        return Err(format!("{difference}\n{}", ended.stderr));
    }
    match ended.status {
        Some(0) => Ok(()),
        status => Err(format!("status {status:?}, {}", ended.stderr)),
    }
}

fn compare_all(program: &str) -> Result<(usize, usize), String> {
    let folder = Folder::new("standard");
    let (mut deeds, mut questions) = (0, 0);
    for (i, world) in worlds().into_iter().enumerate() {
        let mut day = Day::new(world, 0x2545_f491_4f6c_dd1d + i as u64);
        live(&mut day);
        compare(program, &folder, &day, i == 0).map_err(|fault| format!("dimensions {:?}: {fault}", day.house.dimensions))?;
        deeds += day.answers.len();
        questions += day.questions;
    }
    Ok((deeds, questions))
}

fn main() {
    let program = std::env::args().nth(1).expect("usage: standard REPLAY");
    match compare_all(&program) {
        Ok((deeds, questions)) => println!("standard: {deeds} deeds, {questions} questions, nothing differs"),
        Err(difference) => {
            eprintln!("standard: {difference}");
            std::process::exit(1);
        }
    }
}
