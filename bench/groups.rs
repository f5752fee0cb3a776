// Groups a second, for tables of two dimensions with 64, 512 and 4,096 groups: facts put in in a shuffled order, the table rolled up,
// and the facts taken out again.
use std::time::Instant;

extern "C" {
    fn bench_put(row: *mut u64, len: usize, x: u64, y: u64, amount: u64) -> u64;
    fn bench_take(row: *mut u64, len: usize, x: u64, y: u64, amount: u64) -> u64;
    fn bench_roll(
        sides: *const u64,
        sides_len: usize,
        from: *const u64,
        from_len: usize,
        to: *const u64,
        to_len: usize,
        out: *mut u64,
        out_len: usize,
    ) -> u64;
}

// Two branches make a town and two towns a county; seven days make a week.
const SIDES: [u64; 11] = [2, 2, 2, 2, 0, 0, 1, 7, 0, 0, 0];
const TO: [u64; 2] = [1, 1];

fn places(groups: u64) -> Vec<(u64, u64)> {
    let mut all: Vec<(u64, u64)> = (0..groups).map(|i| (i / 16, i % 16)).collect();
    let mut state = 0x9E37_79B9_7F4A_7C15u64;
    for i in (1..all.len()).rev() {
        state ^= state << 13;
        state ^= state >> 7;
        state ^= state << 17;
        all.swap(i, (state % (i as u64 + 1)) as usize);
    }
    all
}

fn main() {
    println!("{:>6} {:>14} {:>14} {:>14}", "groups", "put/s", "take/s", "roll/s");
    for groups in [64u64, 512, 4096] {
        let all = places(groups);
        let rounds = 400_000 / groups;
        let mut row = vec![0u64; 3 + 4 * groups as usize];
        let mut out = vec![0u64; row.len()];
        let (mut put, mut take, mut roll) = (0.0, 0.0, 0.0);
        for _ in 0..rounds {
            let start = Instant::now();
            for &(x, y) in &all {
                assert_eq!(unsafe { bench_put(row.as_mut_ptr(), row.len(), x, y, 5) }, 1);
            }
            put += start.elapsed().as_secs_f64();
            let start = Instant::now();
            let shown = unsafe {
                bench_roll(
                    SIDES.as_ptr(),
                    SIDES.len(),
                    row.as_ptr(),
                    row.len(),
                    TO.as_ptr(),
                    TO.len(),
                    out.as_mut_ptr(),
                    out.len(),
                )
            };
            roll += start.elapsed().as_secs_f64();
            assert_eq!(shown, 1);
            let start = Instant::now();
            for &(x, y) in &all {
                assert_eq!(unsafe { bench_take(row.as_mut_ptr(), row.len(), x, y, 5) }, 1);
            }
            take += start.elapsed().as_secs_f64();
            assert_eq!(row[2], 0);
        }
        let done = (groups * rounds) as f64;
        println!("{groups:>6} {:>14.0} {:>14.0} {:>14.0}", done / put, done / take, done / roll);
    }
}
