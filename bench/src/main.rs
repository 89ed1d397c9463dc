// How fast the proved decider and reducer are, as ratios to the same work in plain C and Rust, all in one run.
// Each claim is given to the three in turn, several times, and the least processor time of each counts.
mod claims;
mod plain;

use claims::{claim, five_nodes, Claim, Make, Prefix};

extern "C" {
    fn zuccarvento_reduce(words: *const i32, words_len: usize, out: *mut i32, out_len: usize, row: *mut u64, row_len: usize);
    fn zuccarvento_decide(words: *const i32, words_len: usize, size: u32, allowance: u64, row: *mut u64, row_len: usize);
    fn plain_c_reduce(words: *const i32, len: usize, out: *mut i32, out_len: usize, row: *mut u64);
    fn plain_c_decide(words: *const i32, len: usize, size: u32, allowance: u64, row: *mut u64);
}

const ROUNDS: usize = 25;

// About how many nodes are worked out for one measurement.
const WORK: u64 = 2_000_000;

const LARGEST_EMISSION: usize = 1_593_376;

#[repr(C)]
struct Time {
    seconds: i64,
    nanoseconds: i64,
}

extern "C" {
    fn clock_gettime(clock: i32, time: *mut Time) -> i32;
}

// The processor time of this thread in nanoseconds, which other work on the machine does not lengthen much.
fn processor_time() -> f64 {
    const THREAD: i32 = 3;
    let mut time = Time { seconds: 0, nanoseconds: 0 };
    unsafe { clock_gettime(THREAD, &mut time) };
    time.seconds as f64 * 1e9 + time.nanoseconds as f64
}

type Decider = fn(&[i32], u32, u64) -> (u64, u64);
type Reducer = fn(&[i32], &mut [i32]) -> u64;

fn proved_decide(words: &[i32], size: u32, allowance: u64) -> (u64, u64) {
    let mut row = [0; 7];
    unsafe { zuccarvento_decide(words.as_ptr(), words.len(), size, allowance, row.as_mut_ptr(), row.len()) };
    (row[0], row[3])
}

fn c_decide(words: &[i32], size: u32, allowance: u64) -> (u64, u64) {
    let mut row = [0; 7];
    unsafe { plain_c_decide(words.as_ptr(), words.len(), size, allowance, row.as_mut_ptr()) };
    (row[0], row[3])
}

fn proved_reduce(words: &[i32], out: &mut [i32]) -> u64 {
    let mut row = [0; 7];
    unsafe { zuccarvento_reduce(words.as_ptr(), words.len(), out.as_mut_ptr(), out.len(), row.as_mut_ptr(), row.len()) };
    row[3]
}

fn c_reduce(words: &[i32], out: &mut [i32]) -> u64 {
    let mut row = [0; 7];
    unsafe { plain_c_reduce(words.as_ptr(), words.len(), out.as_mut_ptr(), out.len(), row.as_mut_ptr()) };
    row[3]
}

fn rust_reduce(words: &[i32], out: &mut [i32]) -> u64 {
    plain::reduce(words, out).unwrap_or(0) as u64
}

// The best of several rounds, in nanoseconds, of each of the three.
fn best(mut work: impl FnMut(usize)) -> [f64; 3] {
    let mut least = [f64::INFINITY; 3];
    for _ in 0..ROUNDS {
        for (who, time) in least.iter_mut().enumerate() {
            let start = processor_time();
            work(who);
            *time = time.min(processor_time() - start);
        }
    }
    least
}

// A claim's row: what was measured, the time of each for a piece of work, and how fast the proved one is beside the faster of the others.
fn row(claim: &str, size: &str, amount: f64, pieces: f64, times: [f64; 3]) -> f64 {
    let [proved, c, rust] = times.map(|t| t / pieces);
    let ratio = c.min(rust) / proved;
    println!("{claim:<46} {size:>5} {amount:>9} {proved:>9.1} {c:>9.1} {rust:>9.1} {ratio:>7.2}");
    ratio
}

fn decide_row(claim: &Claim) -> f64 {
    let deciders: [Decider; 3] = [proved_decide, c_decide, plain::decide];
    let allowance = WORK / (claim.words.len() as u64 / 3);
    let answers = deciders.map(|d| d(&claim.words, claim.size, allowance));
    assert!(answers[0].0 > 0 && answers.iter().all(|a| *a == answers[0]), "{}: {answers:?}", claim.name);
    let steps = answers[0].1;
    let repeats = (allowance / steps.max(1)).max(1);
    let times = best(|who| {
        for _ in 0..repeats {
            std::hint::black_box(deciders[who](&claim.words, claim.size, allowance));
        }
    });
    row(&claim.name, &claim.size.to_string(), steps as f64, (steps * repeats) as f64, times)
}

fn reduce_row(claim: &Claim, out: &mut [Vec<i32>; 3]) -> f64 {
    let reducers: [Reducer; 3] = [proved_reduce, c_reduce, rust_reduce];
    let written: Vec<u64> = (0..3).map(|who| reducers[who](&claim.words, &mut out[who])).collect();
    let n = written[0] as usize;
    assert!(n > 0 && out[0][..n] == out[1][..n] && out[0][..n] == out[2][..n], "{}", claim.name);
    let repeats = WORK as usize / n + 1;
    let times = best(|who| {
        for _ in 0..repeats {
            std::hint::black_box(reducers[who](&claim.words, &mut out[who]));
        }
    });
    row(&claim.name, "", n as f64, (n * repeats) as f64, times)
}

fn heading(what: &str, size: &str, piece: &str) {
    println!("\n{what:<46} {size:>5} {piece:>9} {:>9} {:>9} {:>9} {:>7}", "proved", "C", "Rust", "ratio");
}

fn least(ratios: impl Iterator<Item = f64>) {
    println!("lowest ratio {:.2}", ratios.fold(f64::INFINITY, f64::min));
}

fn measure_decider() {
    use {Make::*, Prefix::*};
    heading("decider", "N", "steps");
    let claims = [
        five_nodes(4096),
        claim(1, 40, Mixed, ForAll, 4096),
        claim(1, 200, SetsOnly, Exists, 4096),
        claim(2, 12, Counting, Exists, 100),
        claim(2, 30, SetsOnly, ForAll, 100),
        claim(2, 40, Mixed, Alternating, 100),
        claim(3, 17, Counting, Exists, 20),
        claim(3, 17, Counting, Alternating, 20),
        claim(3, 65, SetsOnly, ForAll, 20),
        claim(3, 88, Counting, Exists, 20),
        claim(3, 1000, Mixed, Exists, 20),
        claim(6, 40, Counting, Exists, 4),
        claim(6, 68, SetsOnly, ForAll, 4),
        claim(6, 90, Mixed, Alternating, 4),
        claim(6, 1000, Counting, Exists, 3),
        claim(6, 1000, SetsOnly, ForAll, 3),
        claim(7, 68, SetsOnly, ForAll, 3),
        claim(7, 90, Mixed, Alternating, 3),
        claim(8, 40, Counting, Exists, 2),
        claim(8, 1000, Mixed, Exists, 2),
    ];
    least(claims.iter().map(decide_row));
}

fn measure_growth() {
    use {Make::*, Prefix::*};
    heading("decider, as the size grows", "N", "steps");
    for size in [5, 10, 20, 40] {
        decide_row(&claim(2, 40, Mixed, Exists, size));
    }
    heading("decider, as sets are added", "N", "steps");
    for sets in 1..=8 {
        decide_row(&claim(sets, 40, Mixed, Exists, 2));
    }
    heading("decider, as nodes are added", "N", "steps");
    for nodes in [10, 30, 100, 300, 1000] {
        decide_row(&claim(3, nodes, Mixed, Exists, 4));
    }
}

fn measure_reducer() {
    use {Make::*, Prefix::*};
    heading("reducer", "", "words");
    let mut out = [(); 3].map(|_| vec![0; LARGEST_EMISSION]);
    let claims = [
        five_nodes(0),
        claim(2, 40, Mixed, ForAll, 0),
        claim(3, 88, Counting, Alternating, 0),
        claim(3, 1000, Mixed, Exists, 0),
        claim(6, 40, SetsOnly, Exists, 0),
        claim(6, 1000, Mixed, ForAll, 0),
        claim(7, 40, Mixed, Alternating, 0),
        claim(8, 1000, Mixed, ForAll, 0),
    ];
    least(claims.iter().map(|c| reduce_row(c, &mut out)));
}

fn main() {
    println!("Times are nanoseconds of processor time for a step of the decider or a word that the reducer writes, with the call.");
    println!("A ratio is the time of the faster of C and Rust over that of the proved one: above 1 the proved one is the fastest.");
    measure_decider();
    measure_growth();
    measure_reducer();
}
