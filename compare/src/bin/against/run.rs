//! The arguments, the workers, the times, and what is printed.

use crate::kinds::{kind_of, KINDS};
use crate::sides::{Call, Difference, Outcome, Tally, Work, CALLS};
use compare::chance::Chance;
use compare::{library, plain};
use std::sync::atomic::{AtomicBool, AtomicU64, Ordering};
use std::sync::Mutex;
use std::time::{Duration, Instant};

struct Arguments {
    seed: u64,
    subframes: u64,
    seconds: u64,
    threads: usize,
    skip: Vec<String>,
    only: Option<u64>,
}

const USAGE: &str = "against --seed N --subframes N [--seconds LIMIT] [--threads N] [--skip KIND,KIND] [--only INDEX]";

fn arguments() -> Option<Arguments> {
    let mut found = Arguments { seed: 1, subframes: 100_000, seconds: 600, threads: 2, skip: vec![], only: None };
    let mut words = std::env::args().skip(1);
    while let Some(word) = words.next() {
        let value = words.next()?;
        match word.as_str() {
            "--seed" => found.seed = value.parse().ok()?,
            "--subframes" => found.subframes = value.parse().ok()?,
            "--seconds" => found.seconds = value.parse().ok()?,
            "--threads" => found.threads = value.parse::<usize>().ok()?.clamp(1, 64),
            "--only" => found.only = Some(value.parse().ok()?),
            "--skip" => found.skip = value.split(',').map(str::to_string).collect(),
            _ => return None,
        }
    }
    let known = |name: &String| KINDS.iter().any(|kind| kind.name == name);
    found.skip.iter().all(known).then_some(found)
}

/// The exit status: 0 no difference, 1 a difference, 2 bad arguments.
pub fn run() -> i32 {
    let Some(given) = arguments() else {
        let names: Vec<&str> = KINDS.iter().map(|kind| kind.name).collect();
        eprintln!("{USAGE}\nkinds: {}", names.join(" "));
        return 2;
    };
    println!("seed {}", given.seed);
    let began = Instant::now();
    let shared = Shared {
        next: AtomicU64::new(given.only.unwrap_or(0)),
        end: given.only.map_or(given.subframes, |index| index + 1),
        until: began + Duration::from_secs(given.seconds),
        failed: AtomicBool::new(false),
        tallies: Mutex::new([Tally::default(); KINDS.len()]),
    };
    if given.only.is_none() {
        match times(given.seed) {
            Ok(calls) => println!("times: {calls} calls"),
            Err(difference) => {
                print_difference(&given, "times", None, &difference);
                return 1;
            }
        }
    }
    std::thread::scope(|scope| {
        // One of them is this thread itself.
        for _ in 1..given.threads {
            scope.spawn(|| worker(&given, &shared));
        }
        worker(&given, &shared);
    });
    if shared.failed.load(Ordering::SeqCst) {
        return 1;
    }
    let tallies = shared.tallies.lock().expect("no worker panicked");
    summary(&given, &shared, &tallies[..], began.elapsed());
    0
}

struct Shared {
    next: AtomicU64,
    end: u64,
    until: Instant,
    failed: AtomicBool,
    tallies: Mutex<[Tally; KINDS.len()]>,
}

/// Takes the cases in parts of so many.
const PART: u64 = 64;

fn worker(given: &Arguments, shared: &Shared) {
    let mut tallies = [Tally::default(); KINDS.len()];
    while Instant::now() < shared.until && !shared.failed.load(Ordering::SeqCst) {
        let first = shared.next.fetch_add(PART, Ordering::SeqCst);
        if first >= shared.end {
            break;
        }
        for index in first..shared.end.min(first + PART) {
            if let Err((kind, difference)) = case(given, index, &mut tallies) {
                if !shared.failed.swap(true, Ordering::SeqCst) {
                    print_difference(given, KINDS[kind].name, Some(index), &difference);
                }
                return;
            }
        }
    }
    let mut all = shared.tallies.lock().expect("no worker panicked");
    all.iter_mut().zip(&tallies).for_each(|(to, from)| to.add(from));
}

fn case(given: &Arguments, index: u64, tallies: &mut [Tally]) -> Result<(), (usize, Box<Difference>)> {
    let mut chance = Chance::of_case(given.seed, index);
    let kind = kind_of(&mut chance);
    if given.skip.iter().any(|name| name == KINDS[kind].name) {
        return Ok(());
    }
    let tally = &mut tallies[kind];
    tally.cases += 1;
    (KINDS[kind].run)(&mut Work { chance, tally }).map_err(|difference| (kind, difference))
}

/// Every count 0 to 50,402 and every second of the week and a little more, and some far beyond.
fn times(seed: u64) -> Outcome<u64> {
    let mut calls = 0;
    let mut chance = Chance::of_case(seed, u64::MAX);
    let mut beyond: Vec<u32> = (0..32).flat_map(|k| [(1u32 << k) - 1, 1 << k, (1 << k) + 1]).collect();
    beyond.extend([604_799, 604_800, 604_801, u32::MAX, u32::MAX - 1, u32::MAX - 11, u32::MAX - 12]);
    beyond.extend((0..2000).map(|_| chance.draw() as u32));
    let both = |what: &str, given: u32, library: (u32, u32), plain: (u32, u64)| {
        if (library.0, u64::from(library.1)) == plain {
            return Ok(());
        }
        Err(Box::new(Difference {
            what: what.to_string(),
            inputs: vec![("given", format!("{given} (hex {given:x})"))],
            library: format!("{library:?}"),
            plain: format!("{plain:?}"),
        }))
    };
    for towc in (0..=50_402).chain(beyond.iter().copied()) {
        both("began_at", towc, library::began_at(towc), plain::began(u64::from(towc)))?;
        calls += 1;
    }
    for second in (0..=604_850).chain(beyond.iter().copied()) {
        both("count_in", second, library::count_in(second), plain::count_of(u64::from(second)))?;
        calls += 1;
    }
    Ok(calls)
}

fn print_difference(given: &Arguments, kind: &str, index: Option<u64>, difference: &Difference) {
    println!("DIFFERENCE in {kind}: {}", difference.what);
    if let Some(index) = index {
        println!("  seed {}, index {index}; to repeat: against --seed {} --only {index}", given.seed, given.seed);
    }
    for (name, value) in &difference.inputs {
        println!("  {name}: {value}");
    }
    println!("  library: {}", difference.library);
    println!("  plain:   {}", difference.plain);
}

fn summary(given: &Arguments, shared: &Shared, tallies: &[Tally], took: Duration) {
    let mut all = Tally::default();
    println!("{:<14}{:>9}  calls and the numbers they gave", "kind", "cases");
    for (kind, tally) in KINDS.iter().zip(tallies) {
        let skipped = given.skip.iter().any(|name| name == kind.name);
        if tally.cases == 0 && !skipped {
            continue;
        }
        let text = if skipped { "skipped".to_string() } else { calls_of(tally) };
        println!("{:<14}{:>9}  {text}", kind.name, tally.cases);
        all.add(tally);
    }
    println!("{:<14}{:>9}  {}", "all", all.cases, calls_of(&all));
    let (read, written) = (all.count(Call::Read), all.count(Call::Write));
    println!("{read} subframes read (at most {} corrected in one that was done), {written} written", all.most);
    let [three, four] = all.messages.map(u64::count_ones);
    println!("of 64 message IDs, {three} were read in subframe 3 and {four} in subframe 4");
    println!("{} of the readings and searches also by the slow search", all.slow);
    if shared.next.load(Ordering::SeqCst) < shared.end {
        println!("stopped by the limit of {} seconds", given.seconds);
    }
    println!("no difference in {:.1} s", took.as_secs_f64());
}

fn calls_of(tally: &Tally) -> String {
    let mut parts = Vec::new();
    for (call, name) in CALLS {
        if tally.count(call) == 0 {
            continue;
        }
        let numbers = tally.given[call as usize].iter().enumerate().filter(|(_, &count)| count > 0);
        let numbers: Vec<String> = numbers
            .map(|(number, count)| match (call, number) {
                (Call::Idle, 0) => format!("no:{count}"),
                (Call::Idle, _) => format!("yes:{count}"),
                _ => format!("{number}:{count}"),
            })
            .collect();
        parts.push(format!("{name} {}", numbers.join(" ")));
    }
    parts.join("; ")
}
