// Random books: what advise chooses, beside the choice worked out again from all facts, and beside the best of all pairs of tables.
// Usage: pairs ADVISE
mod common;

use common::{all_levels, dimensions_row, no_coarser, numbers_out, place_at, run, Folder, Levels, Random};
use std::collections::BTreeSet;

const BOOKS: u32 = 300;

struct Book {
    dimensions: Vec<Vec<u32>>,
    facts: Vec<Vec<u32>>,
}

impl Book {
    // Narrow and wide dimensions beside each other, so that tables differ in size.
    fn draw(random: &mut Random) -> Book {
        let width = 1 + random.below(3);
        let dimensions: Vec<Vec<u32>> =
            (0..width).map(|_| (0..random.below(3)).map(|_| 1 + random.below(6)).collect()).collect();
        let spreads: Vec<u32> = (0..width).map(|_| 1 + random.below(30)).collect();
        let mut facts = Vec::new();
        for _ in 0..random.below(60) {
            let mut fact: Vec<u32> = spreads.iter().map(|spread| random.below(*spread)).collect();
            fact.push(random.below(1000));
            facts.push(fact);
        }
        Book { dimensions, facts }
    }

    fn bytes(&self, n: u32) -> Vec<u8> {
        let mut row = dimensions_row(&self.dimensions);
        row.push(n);
        row.extend(self.facts.iter().flatten());
        numbers_out(&row)
    }

    // How many places the facts have at levels.
    fn size(&self, levels: &Levels) -> u64 {
        let places: BTreeSet<Vec<u32>> = self.facts.iter().map(|fact| place_at(&self.dimensions, levels, fact)).collect();
        places.len() as u64
    }
}

// All levels with their sizes; tables are named by their index.
struct Sizes {
    all: Vec<Levels>,
    sizes: Vec<u64>,
}

impl Sizes {
    fn of(book: &Book) -> Sizes {
        let all = all_levels(&book.dimensions);
        let sizes = all.iter().map(|levels| book.size(levels)).collect();
        Sizes { all, sizes }
    }

    fn answers(&self, table: usize, question: usize) -> bool {
        no_coarser(&self.all[table], &self.all[question])
    }

    // What tables save over all questions, beside the finest table alone.
    fn saved(&self, tables: &[usize]) -> u64 {
        let finest = self.sizes[0];
        let cost = |question| {
            let kept = tables.iter().filter(|table| self.answers(**table, question));
            kept.map(|table| self.sizes[*table]).min().unwrap_or(finest).min(finest)
        };
        (0..self.all.len()).map(|question| finest - cost(question)).sum()
    }

    // One more table: the first of those that save most.
    fn with_best(&self, tables: &[usize]) -> Vec<usize> {
        let joined = |table: usize| [tables, &[table]].concat();
        let most = (0..self.all.len()).map(|table| self.saved(&joined(table))).max().unwrap();
        joined((0..self.all.len()).find(|table| self.saved(&joined(*table)) == most).unwrap())
    }

    // The lines that a choice of n is told with.
    fn choice(&self, n: u32) -> (String, u64) {
        let mut tables = Vec::new();
        let mut text = String::new();
        for _ in 0..n {
            tables = self.with_best(&tables);
            let levels: Vec<String> = self.all[*tables.last().unwrap()].iter().map(u32::to_string).collect();
            text += &format!("{} saves {}\n", levels.join(" "), self.saved(&tables));
        }
        (text, self.saved(&tables))
    }

    fn best_pair(&self) -> u64 {
        let count = self.all.len();
        (0..count).flat_map(|i| (i..count).map(move |j| self.saved(&[i, j]))).max().unwrap()
    }
}

fn compare(advise: &str, folder: &Folder, book: &Book, n: u32, expected: &str) {
    let ended = run(advise, &folder.write(&book.bytes(n)), n == 2);
    if ended.status != Some(0) || ended.stdout != expected {
        println!("a choice of {n} for {:?} {:?}", book.dimensions, book.facts);
        println!("expected\n{expected}got ({:?})\n{}", ended.status, ended.stdout);
        std::process::exit(1);
    }
}

fn main() {
    let advise = std::env::args().nth(1).expect("the program to run");
    let folder = Folder::new("pairs");
    let mut random = Random(0x5DEE_CE66_D1CE_4E5B);
    let (mut least, mut at_best, mut pairs) = (1.0f64, 0, 0);
    for _ in 0..BOOKS {
        let book = Book::draw(&mut random);
        let sizes = Sizes::of(&book);
        let (text, saved) = sizes.choice(2);
        compare(&advise, &folder, &book, 2, &text);
        compare(&advise, &folder, &book, 5, &sizes.choice(5).0);
        let best = sizes.best_pair();
        pairs += sizes.all.len() * (sizes.all.len() + 1) / 2;
        assert!(4 * saved >= 3 * best, "below three quarters: {:?} {:?}", book.dimensions, book.facts);
        at_best += (saved == best) as u32;
        if best > 0 {
            least = least.min(saved as f64 / best as f64);
        }
    }
    println!("pairs: {BOOKS} books, {pairs} pairs; the choice of two saved at least {least:.3} of the best pair, and as much in {at_best} books");
}
