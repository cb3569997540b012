//! The static library beside a plain Rust copy and a plain C copy, on the same sheets, in one run.
//!
//! The sheet is copied afresh for every call, outside the measured time; the table and the result are cleared before each batch of
//! calls, also outside, and not between its calls. Rounds of the three follow one another, and the quickest round of each counts.
//! With a solver and a sheet as words it makes one call only, for a profiler. With `growth` it measures the library and the C copy on
//! sheets of about 60,000 bytes that grow in one thing each, beside two lower bounds; and then on ladders, once each, since the largest
//! takes minutes. With `drafts` it measures the two functions on drafts; with `drafts`, a function and a draft it makes one call only.

mod draft_sheets;
mod drafts;
mod growth;
mod plain;
mod sheets;

use library::through;
use sheets::Sample;
use std::env;
use std::thread;
use std::time::{Duration, Instant};

type Solve = fn(&mut [u8], &mut [u8], u64, &mut [u8]) -> u32;

extern "C" {
    fn plain_solve(s: *mut u8, sl: usize, t: *mut u8, tl: usize, budget: u64, r: *mut u8, rl: usize) -> u32;
    fn bound_touch(s: *mut u8, sl: usize, t: *mut u8, tl: usize, budget: u64, r: *mut u8, rl: usize) -> u32;
    fn bound_sweep(s: *mut u8, sl: usize, t: *mut u8, tl: usize, budget: u64, r: *mut u8, rl: usize) -> u32;
}

const SOLVERS: [(&str, Solve); 3] =
    [("library", library::solve), ("plain Rust", plain::solve), ("plain C", |s, t, b, r| through(plain_solve, s, t, b, r))];

/// What every solver does at least: each byte read once for the questions; the price alone, by one sweep backwards.
const BOUNDS: [(&str, Solve); 2] =
    [("touch", |s, t, b, r| through(bound_touch, s, t, b, r)), ("sweep", |s, t, b, r| through(bound_sweep, s, t, b, r))];

const TABLE_BYTES: usize = 16_384;
const ROUNDS: usize = 50;
const ROUND_TIME: Duration = Duration::from_millis(20);
const MOST_COPIES: usize = 2_000;
const STACK_BYTES: usize = 64 << 20;

fn main() {
    let thread = thread::Builder::new().stack_size(STACK_BYTES).spawn(run).expect("a thread starts");
    thread.join().expect("the benchmark ends");
}

fn run() {
    let words: Vec<String> = env::args().skip(1).collect();
    match &words[..] {
        [] => measure_all(),
        [word] if word == "growth" => {
            measure_growth();
            measure_ladders();
        }
        [word] if word == "drafts" => drafts::measure_all(),
        [word, function, draft] if word == "drafts" => drafts::once(function, draft),
        [solver, sheet] => once(solver, sheet),
        _ => panic!("no words; `growth`; `drafts`; or what to call once, by its names in the tables and in C"),
    }
}

/// One call, for a profiler.
fn once(solver: &str, sheet: &str) {
    let (_, solve) = SOLVERS.into_iter().chain(BOUNDS).find(|(name, _)| *name == solver).expect("a solver's name");
    let mut samples = sheets::all().into_iter().chain(growth::all()).chain(growth::ladders());
    let sample = samples.find(|sample| sample.name == sheet).expect("a sheet's name");
    batch(solve, &sample, 1);
}

fn measure_all() {
    if cfg!(debug_assertions) {
        println!("built without --release: these times say nothing");
    }
    println!("plain Rust: the profile of this program, release; plain C: cc -O3. All three work in place on the sheet's bytes.");
    println!("buffers: sheet copied afresh for each call; table (16,384 bytes) and result cleared before each batch of calls;");
    println!("         both outside the measured time. Each time is one call, the quickest of {ROUNDS} rounds.\n");
    println!(
        "{:<30} {:>7} {:>7} {:>8} {:>12} {:>12} {:>12} {:>9} {:>9}",
        "sheet", "bytes", "passes", "raises", "library", "plain Rust", "plain C", "lib/Rust", "lib/C"
    );
    for sample in sheets::unmeasured() {
        agreed(&sample);
    }
    for sample in sheets::all() {
        measure(&sample);
    }
}

fn measure(sample: &Sample) {
    let (passes, raises) = same_answers(sample);
    let copies = copies_for(sample);
    let mut best = [Duration::MAX; SOLVERS.len()];
    for _ in 0..ROUNDS {
        for (place, (_, solve)) in SOLVERS.iter().enumerate() {
            best[place] = best[place].min(batch(*solve, sample, copies));
        }
    }
    let [library, rust, c] = best.map(|time| time.as_secs_f64() * 1e6 / copies as f64);
    println!(
        "{:<30} {:>7} {passes:>7} {raises:>8} {library:>9.2} us {rust:>9.2} us {c:>9.2} us {:>9.2} {:>9.2}",
        sample.name,
        sample.bytes.len(),
        library / rust,
        library / c
    );
}

fn measure_growth() {
    println!("{:<34} {:>7} {:>7} {:>8} {:>12} {:>12} {:>12} {:>12}", "sheet", "bytes", "passes", "raises", "library", "plain C", "sweep", "touch");
    for sample in growth::all() {
        let (passes, raises) = same_answers(&sample);
        let copies = copies_for(&sample);
        let mut best = [Duration::MAX; 4];
        let solvers = [SOLVERS[0], SOLVERS[2], BOUNDS[1], BOUNDS[0]];
        for _ in 0..ROUNDS {
            for (place, (_, solve)) in solvers.iter().enumerate() {
                best[place] = best[place].min(batch(*solve, &sample, copies));
            }
        }
        let [library, c, sweep, touch] = best.map(|time| time.as_secs_f64() * 1e6 / copies as f64);
        let (name, bytes) = (sample.name, sample.bytes.len());
        println!("{name:<34} {bytes:>7} {passes:>7} {raises:>8} {library:>9.1} us {c:>9.1} us {sweep:>9.1} us {touch:>9.1} us");
    }
}

/// Ladders: one call each of the library and of the C copy, which leave the same bytes, and the price is the one that `sweep` finds.
/// The simple copy of the procedure would take too long.
fn measure_ladders() {
    println!("\n{:<34} {:>7} {:>10} {:>14} {:>12} {:>12}", "sheet", "bytes", "passes", "raises", "library", "plain C");
    for sample in growth::ladders() {
        let [library, c] = [SOLVERS[0], SOLVERS[2]].map(|(_, solve)| {
            let began = Instant::now();
            let answer = answer(solve, &sample);
            (answer, began.elapsed().as_secs_f64())
        });
        assert!(library.0 == c.0, "{}: the library and the C copy differ", sample.name);
        let [price, passes, raises] = numbers(&library.0 .1);
        assert!(library.0 .0 == 100 && Some(price) == least_cost(&sample), "{}: the price is {price}", sample.name);
        let (name, bytes) = (sample.name, sample.bytes.len());
        println!("{name:<34} {bytes:>7} {passes:>10} {raises:>14} {:>10.2} s {:>10.2} s", library.1, c.1);
    }
}

/// The start's least cost, by `sweep`.
fn least_cost(sample: &Sample) -> Option<u64> {
    let sheet = sweep::read(&sample.bytes).expect("a sheet");
    sheet.least_costs()[0]
}

/// So many calls, each on a fresh copy of the sheet.
fn batch(solve: Solve, sample: &Sample, copies: usize) -> Duration {
    let mut sheets: Vec<Vec<u8>> = (0..copies).map(|_| sample.bytes.clone()).collect();
    let (mut table, mut result) = ([0; TABLE_BYTES], [0; 24]);
    let began = Instant::now();
    for sheet in &mut sheets {
        solve(sheet, &mut table, u64::MAX, &mut result);
    }
    began.elapsed()
}

/// As many copies as the plain C copy works in about the time of a round.
fn copies_for(sample: &Sample) -> usize {
    let (_, plain_c) = SOLVERS[2];
    let once = batch(plain_c, sample, 1).max(Duration::from_nanos(100));
    (ROUND_TIME.as_nanos() / once.as_nanos()).clamp(1, MOST_COPIES as u128) as usize
}

/// All three, and `procedure`, leave the same bytes, table and result. Passes and raises.
fn same_answers(sample: &Sample) -> (u64, u64) {
    let (number, result) = agreed(sample);
    assert!(number == 100, "{}: returned {number}", sample.name);
    let [_, passes, raises] = numbers(&result);
    (passes, raises)
}

/// Price, passes and raises.
fn numbers(result: &[u8; 24]) -> [u64; 3] {
    [0, 8, 16].map(|at| u64::from_le_bytes(result[at..at + 8].try_into().expect("eight bytes")))
}

/// The number and the result on which all agree.
fn agreed(sample: &Sample) -> (u32, [u8; 24]) {
    let expected = answer(procedure::call, sample);
    for (name, solve) in SOLVERS {
        assert!(answer(solve, sample) == expected, "{}: {name} differs from procedure", sample.name);
    }
    (expected.0, expected.1)
}

/// What a call returns and leaves: the number, the result, the sheet and the table.
fn answer(solve: Solve, sample: &Sample) -> (u32, [u8; 24], Vec<u8>, [u8; TABLE_BYTES]) {
    let mut sheet = sample.bytes.clone();
    let (mut table, mut result) = ([7; TABLE_BYTES], [7; 24]);
    let number = solve(&mut sheet, &mut table, u64::MAX, &mut result);
    (number, result, sheet, table)
}
