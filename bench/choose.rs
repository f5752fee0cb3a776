// How long `advise` takes to choose 15 of 1,296 tables: four dimensions of four factors, for 64, 512 and 4,096 groups.
use std::process::{Command, Stdio};
use std::time::Instant;

const DIMENSIONS: u32 = 4;
const FACTORS: [u32; 4] = [2, 2, 2, 2];

// Eight numbers a dimension make 4,096 places; fewer groups are every so manieth of them.
fn day(groups: u32, n: u32) -> Vec<u8> {
    let mut numbers = vec![DIMENSIONS];
    for _ in 0..DIMENSIONS {
        numbers.push(4);
        numbers.extend(FACTORS);
    }
    numbers.push(n);
    for i in 0..groups {
        let place = i * (4096 / groups);
        numbers.extend([place / 512, place / 64 % 8, place / 8 % 8, place % 8, 1 + i % 9]);
    }
    numbers.iter().flat_map(|n| n.to_le_bytes()).collect()
}

fn main() {
    let mut args = std::env::args().skip(1);
    let (advise, file) = (args.next().expect("the program"), args.next().expect("a file to write"));
    println!("{:>6} {:>10} {:>10}", "groups", "n = 1", "n = 15");
    for groups in [64, 512, 4096] {
        print!("{groups:>6}");
        for n in [1, 15] {
            std::fs::write(&file, day(groups, n)).expect("the file");
            let start = Instant::now();
            let status = Command::new(&advise).arg(&file).stdout(Stdio::null()).status().expect("to run");
            assert!(status.success());
            print!(" {:>8.3} s", start.elapsed().as_secs_f64());
        }
        println!();
    }
}
