//! Runs the same loops by the exported library and by the independent program, compares what they leave,
//! and prints both times and their ratio.

mod library;
mod loops;

use std::process::ExitCode;
use std::time::{Duration, Instant};

use loops::{Loop, PORTION, STEPS};

const ROUNDS: usize = 40;
const IMAGES: usize = 500;

/// Document 02, Q-14: the library is to be within three times the ordinary program's time.
const LIMIT: f64 = 3.0;

/// A record's cycles are those of the PSI's φ, the processor's clock (document 002, its TMS 9901 manual, table
/// of pins). On the board of document 002 that is 2 MHz (1.3 General Specifications; 8.3.1: 8 MHz at CKIN, four
/// phases). Its TMS 9980A manual has 2 MHz as the most ("a system speed of 1.5 MHz to 2 MHz", 4.4.2), although
/// the 10 MHz that it allows at CKIN would make 2.5.
const CYCLES_A_SECOND: f64 = 2e6;
const SECONDS_A_DAY: f64 = 86400.0;

#[derive(Default)]
struct Times {
    library: Duration,
    oracle: Duration,
}

/// A million steps by both, portion by portion, each portion's answers and memories compared.
fn steps(of: &Loop) -> Times {
    let mut times = Times::default();
    let mut ours = vec![0; oracle::MEMORY_SIZE];
    let mut theirs = ours.clone();
    let mut words = library::Words::default();
    assert_eq!(library::read_image(&of.image, &mut ours, &mut words, &mut 0), 0);
    let mut state = oracle::read_image(&of.image, &mut theirs).state;
    assert_eq!(library::state(&words), state);
    let mut ticks = 0;
    let mut left = STEPS;
    while left > 0 {
        let portion = left.min(PORTION);
        let mut counts = library::Counts::default();
        let start = Instant::now();
        let number = library::run(&mut ours, &mut words, &of.records, portion, 1, &mut counts);
        times.library += start.elapsed();
        let start = Instant::now();
        let answer = oracle::run(&mut theirs, state, &of.records, portion, 1);
        times.oracle += start.elapsed();
        state = answer.state;
        assert_eq!((number, answer.number), (0, 0));
        assert_eq!((answer.steps, answer.unassigned), (portion, 0));
        let last = answer.last;
        assert_eq!(
            counts,
            [portion as u64, 0, last.kind().into(), last.number().into()]
        );
        assert_eq!(library::state(&words), state);
        assert!(ours == theirs, "the memories differ");
        if let Some(at) = of.ticks {
            let before = std::mem::replace(&mut ticks, loops::word(&ours, at));
            assert!(ticks > before, "no interrupt was taken");
        }
        left -= portion;
    }
    times
}

/// Images written and read back by both.
fn images(image: &[u8]) -> Times {
    let mut times = Times::default();
    let mut memory = vec![0; oracle::MEMORY_SIZE];
    let state = oracle::read_image(image, &mut memory).state;
    let words = library::words(&state);
    let mut ours = vec![0; oracle::IMAGE_SIZE];
    let mut theirs = ours.clone();
    let mut back = memory.clone();
    for _ in 0..IMAGES {
        let mut read = library::Words::default();
        let start = Instant::now();
        let wrote = library::write_image(&words, &memory, &mut ours);
        let number = library::read_image(&ours, &mut back, &mut read, &mut 0);
        times.library += start.elapsed();
        assert!(wrote == 0 && number == 0 && read == words && back == memory);
        let start = Instant::now();
        let wrote = oracle::write_image(state, &memory, &mut theirs);
        let answer = oracle::read_image(&theirs, &mut back);
        times.oracle += start.elapsed();
        assert!(wrote.number == 0 && answer.number == 0 && answer.state == state && back == memory);
        assert!(ours == theirs && ours == image, "the images differ");
    }
    times
}

/// Two images whose memories differ in some bytes.
struct Pair {
    first: Vec<u8>,
    second: Vec<u8>,
    runs: u32,
}

/// The image, and one whose memory differs from its in the bytes that `differs` names, asked from 0 on.
fn pair(image: &[u8], mut differs: impl FnMut(usize) -> bool) -> Pair {
    let mut memory = vec![0; oracle::MEMORY_SIZE];
    let state = oracle::read_image(image, &mut memory).state;
    let mut runs = 0;
    let mut before = false;
    for (address, byte) in memory.iter_mut().enumerate() {
        let now = differs(address);
        *byte ^= u8::from(now);
        runs += u32::from(now && !before);
        before = now;
    }
    let mut second = image.to_vec();
    assert_eq!(oracle::write_image(state, &memory, &mut second).number, 0);
    Pair {
        first: image.to_vec(),
        second,
        runs,
    }
}

/// Two images compared by both.
fn compared(of: &Pair) -> Times {
    let mut times = Times::default();
    let mut ours = [0; 512];
    let mut theirs = [0; 512];
    for _ in 0..IMAGES {
        let mut answer = library::Compared::default();
        let start = Instant::now();
        let number = library::compare_images(&of.first, &of.second, &mut answer, &mut ours);
        times.library += start.elapsed();
        let start = Instant::now();
        let expected = oracle::compare_images(&of.first, &of.second, &mut theirs);
        times.oracle += start.elapsed();
        assert_eq!((number, expected.number), (0, 0));
        assert_eq!(
            (answer, expected.fields, expected.runs),
            ([0, 0, 0, of.runs], 0, of.runs)
        );
        assert!(ours == theirs, "the runs differ");
    }
    times
}

/// The least of several rounds, for each of the two.
fn best(round: impl Fn() -> Times) -> Times {
    let mut least = round();
    for _ in 1..ROUNDS {
        let times = round();
        least.library = least.library.min(times.library);
        least.oracle = least.oracle.min(times.oracle);
    }
    least
}

/// Prints a line; whether the ratio is within the limit.
fn report(name: &str, count: usize, unit: &str, times: &Times) -> bool {
    let time = |t: Duration| {
        let seconds = t.as_secs_f64();
        format!(
            "{:6.1} ms {:8.1} ns a {unit}",
            seconds * 1e3,
            seconds * 1e9 / count as f64
        )
    };
    let ratio = times.library.as_secs_f64() / times.oracle.as_secs_f64();
    println!(
        "{name:26} library {}   oracle {}   ratio {ratio:5.2}",
        time(times.library),
        time(times.oracle),
    );
    ratio <= LIMIT
}

/// How long a day's recording takes at the pace of the loop that was measured.
fn report_day(of: &Loop, times: &Times) {
    let cycles: u64 = (0..STEPS).map(|i| u64::from(of.records[i % PORTION] >> 22)).sum();
    let pace = CYCLES_A_SECOND * STEPS as f64 / cycles as f64;
    let steps = SECONDS_A_DAY * pace;
    let seconds = |t: Duration| t.as_secs_f64() * steps / STEPS as f64;
    println!(
        "a day ({SECONDS_A_DAY} s, {:.0} million steps at {pace:.0} steps a second): \
         library {:.0} s, oracle {:.0} s",
        steps / 1e6,
        seconds(times.library),
        seconds(times.oracle),
    );
}

fn main() -> ExitCode {
    println!("{STEPS} steps in portions of {PORTION} records; the least of {ROUNDS} rounds each; all answers compared");
    let mut within = true;
    let mut measure = |of: &Loop| {
        of.check();
        let times = best(|| steps(of));
        within &= report(of.name, STEPS, "step", &times);
        times
    };
    let registers = loops::registers();
    measure(&registers);
    measure(&loops::cru());
    measure(&loops::mixed());
    measure(&loops::x());
    let sample = loops::measuring();
    let times = measure(&sample);
    within &= report(
        "images written and read",
        IMAGES,
        "pair",
        &best(|| images(&registers.image)),
    );
    let image = &registers.image;
    let mut random = loops::Random::new();
    for (name, of) in [
        ("compared, no difference", pair(image, |_| false)),
        ("compared, 8 runs", pair(image, |address| address % 2048 == 1000)),
        ("compared, 1 run of all", pair(image, |_| true)),
        ("compared, 8192 runs", pair(image, |address| address % 2 == 0)),
        ("compared, runs by chance", pair(image, |_| random.below(2) == 0)),
    ] {
        within &= report(name, IMAGES, "comparison", &best(|| compared(&of)));
    }
    report_day(&sample, &times);
    if within {
        ExitCode::SUCCESS
    } else {
        eprintln!("bench: a line is beyond {LIMIT} times the ordinary program's time");
        ExitCode::FAILURE
    }
}
