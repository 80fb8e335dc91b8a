//! The comparison: batches over threads, counts, and what disagrees.

use std::io::{self, Read};
use std::sync::atomic::{AtomicU64, Ordering};
use std::thread::Builder;
use std::time::Instant;

use sides::generate::{BATCH, batch, crowded, large, numeric, spaces};
use sides::input::Input;
use sides::pair::Sizes;
use sides::real;
use sides::rust::STACK;

use crate::arguments::Arguments;
use crate::counts::{Beside, Counts, Sum, print_contents};
use crate::judge::{Judge, Judged, Verdict, header_text, pair_text, published_text, sums_text};
use crate::outside::Outside;
use crate::plain_run;
use crate::shrink::shrink;

const COUNT: u64 = 2_000_000;
/// There are so many times fewer plain files than headers.
const HEADERS_TO_PLAIN: u64 = 4;
/// Disagreements that are kept.
const KEPT: usize = 100;
/// Of so many inputs of a batch one is filled with tables of many sizes.
const MANY_SIZES: u64 = 4;

/// Shows the headers that go with a batch, of a seed and a number.
type Batch = fn(u64, u64, &mut dyn FnMut(&Input));

#[derive(Default)]
struct Headers {
    counts: Counts,
    /// Inputs that disagree or panic.
    shown: Vec<Input>,
}

impl Headers {
    fn count(&mut self, input: &Input, judged: &Judged) {
        self.counts.count(judged);
        if matches!(judged.verdict, Verdict::Panicked(_) | Verdict::Differs(_)) {
            keep(&mut self.shown, input);
        }
    }
}

impl Sum for Headers {
    fn add(&mut self, other: Headers) {
        self.counts.add(other.counts);
        self.shown.extend(other.shown);
    }
}

impl Headers {
    fn is_right(&self) -> bool {
        self.counts.differing == 0 && self.counts.panicked == 0
    }

    fn print_shown(&mut self, arguments: &Arguments) {
        let mut judge = Judge::new(arguments.breakage);
        self.shown.sort_by_key(|input| input.file.len());
        for input in self.shown.iter().take(arguments.shown) {
            print_smallest(&mut judge, input);
        }
    }
}

/// How many tables are lent for one of the inputs of a batch.
pub fn sizes(batch: u64, number: u64) -> Sizes {
    match (batch + number) % MANY_SIZES {
        0 => Sizes::Many,
        _ => Sizes::Few,
    }
}

/// Keeps what is shown later, as long as there is room.
pub fn keep<T: ToOwned + ?Sized>(shown: &mut Vec<T::Owned>, input: &T) {
    if shown.len() < KEPT {
        shown.push(input.to_owned());
    }
}

/// Compares headers and plain files, prints the counts, and answers whether there was no
/// disagreement and no panic.
pub fn run(arguments: &Arguments) -> io::Result<bool> {
    print!("{}", sides::VERSIONS);
    println!("seed {}, threads {}", arguments.seed, arguments.threads);
    if let Some(breakage) = arguments.breakage {
        println!("broken on purpose: {}", breakage.name);
    }
    let count = arguments.count.unwrap_or(COUNT);
    let headers = headers(arguments, count)?;
    let crowded = further_headers(arguments, count, "crowded headers", crowded::batch);
    let numeric = further_headers(arguments, count, "numeric headers", numeric::batch);
    let spaces = further_headers(arguments, count, "headers of dataspaces", spaces::batch);
    let files = plain_run::all(arguments, count / HEADERS_TO_PLAIN)?;
    Ok(headers && crowded && numeric && spaces && files)
}

fn headers(arguments: &Arguments, count: u64) -> io::Result<bool> {
    let real = real::headers(&arguments.files)?;
    let start = Instant::now();
    let mut headers = Headers::default();
    let mut judge = Judge::new(arguments.breakage);
    for input in &real {
        headers.count(input, &judge.judged(input));
    }
    let beside = headers.counts.beside.clone();
    let outside = headers.counts.outside.clone();
    let false_sums = headers.counts.false_sums();
    for input in &large::inputs() {
        headers.count(input, &judge.judged(input));
    }
    headers.add(over_threads(
        arguments,
        count,
        &|number, judge, headers: &mut Headers| {
            let mut shown = 0;
            batch(arguments.seed, number, &real, &mut |input| {
                headers.count(input, &judge.judged_with(input, sizes(number, shown)));
                shown += 1;
            });
        },
    ));
    println!(
        "inputs {}, {} of them headers of real files as they are",
        headers.counts.headers,
        real.len()
    );
    print_real(&beside, &outside, false_sums);
    print_counts(&headers.counts, start);
    headers.print_shown(arguments);
    let shows_patch = headers.counts.beside.shows_patch();
    if !shows_patch {
        println!("the published Rust answers nothing otherwise than the mended one");
    }
    Ok(headers.is_right() && shows_patch)
}

/// Prints what is said of the headers of real files as they are.
fn print_real(beside: &Beside, outside: &Outside, false_sums: u64) {
    const NAME: &str = "headers of real files as they are ";
    beside.print(NAME);
    outside.print(NAME);
    println!("{NAME}with a false sum {false_sums}");
}

/// Compares the headers with a name that go with so many inputs.
fn further_headers(arguments: &Arguments, count: u64, name: &str, batch: Batch) -> bool {
    let start = Instant::now();
    let mut headers = over_threads(arguments, count, &|number, judge, headers: &mut Headers| {
        batch(arguments.seed, number, &mut |input| {
            headers.count(input, &judge.judged(input));
        });
    });
    let counts = &headers.counts;
    println!("\n{name} {}", counts.headers);
    print_speed(counts.headers, "headers", start);
    counts.print(&format!("{name} "));
    println!("{name} accepted with blocks {}", counts.headers_with_blocks);
    println!("panics of the Rust in {name} {}", counts.panicked);
    println!("disagreements in {name} {}", counts.differing);
    headers.print_shown(arguments);
    headers.is_right()
}

/// All batches of so many inputs, over the threads: `work` compares the batch of a number.
pub fn over_threads<T: Sum>(
    arguments: &Arguments,
    count: u64,
    work: &(dyn Fn(u64, &mut Judge, &mut T) + Sync),
) -> T {
    let last = count.div_ceil(BATCH as u64);
    let next = AtomicU64::new(0);
    let work = || {
        let mut judge = Judge::new(arguments.breakage);
        let mut counts = T::default();
        loop {
            let number = next.fetch_add(1, Ordering::Relaxed);
            if number >= last {
                return counts;
            }
            work(number, &mut judge, &mut counts);
        }
    };
    let mut counts = T::default();
    std::thread::scope(|scope| {
        let start = |_| {
            let builder = Builder::new().stack_size(STACK);
            builder.spawn_scoped(scope, work).expect("a thread")
        };
        let threads: Vec<_> = (0..arguments.threads).map(start).collect();
        for thread in threads {
            counts.add(thread.join().expect("a thread that ends"));
        }
    });
    counts
}

fn print_counts(counts: &Counts, start: Instant) {
    print_speed(counts.headers, "inputs", start);
    counts.print("");
    println!("panics of the Rust {}", counts.panicked);
    println!("disagreements {}", counts.differing);
    print_contents(counts);
    counts.print_addresses("");
}

pub fn print_speed(count: u64, name: &str, start: Instant) {
    let seconds = start.elapsed().as_secs_f64();
    let speed = count as f64 / seconds;
    println!("{seconds:.1} seconds, {speed:.0} {name} a second");
}

/// Shrinks an input that disagrees or panics, and prints it with all answers.
fn print_smallest(judge: &mut Judge, input: &Input) {
    let panics = matches!(judge.verdict(input), Verdict::Panicked(_));
    let smallest = shrink(input, &mut |smaller| match judge.verdict(smaller) {
        Verdict::Panicked(_) => panics,
        Verdict::Differs(_) => !panics,
        _ => false,
    });
    println!("\ninput {}", smallest.hex());
    print_answers(&judge.judged(&smallest));
}

/// Prints what is said of an input; what the published Rust says only where it is something else.
pub fn print_answers(judged: &Judged) {
    match &judged.verdict {
        Verdict::Differs(text) | Verdict::Panicked(text) => return print!("{text}"),
        Verdict::Accepted(header) => print!("port and mended Rust:\n{}", header_text(header)),
        Verdict::Refused(number) => {
            println!("port and mended Rust:\nrefused, by the port with {number}")
        }
        Verdict::FalseSum(sum) => println!("port:\nrefused 28, a false sum: {}", sum.text()),
        Verdict::Outside(why) => println!("outside the comparison: {}", why.text()),
    }
    if let Some(outcome) = &judged.otherwise {
        print!("{}", published_text(outcome));
    }
}

/// One input from standard input: lead bytes and file.
pub fn one(arguments: &Arguments) -> io::Result<bool> {
    let mut bytes = Vec::new();
    io::stdin().read_to_end(&mut bytes)?;
    let Some(input) = Input::from_bytes(&bytes) else {
        return Err(io::Error::other("fewer than 18 lead bytes"));
    };
    let judged = Judge::new(arguments.breakage).judged(&input);
    print_answers(&judged);
    if !matches!(judged.verdict, Verdict::Differs(_) | Verdict::Panicked(_)) {
        print!("{}", pair_text(&judged.pair));
        print!("{}", sums_text(&judged.closings, &input.file));
    }
    Ok(!matches!(
        judged.verdict,
        Verdict::Differs(_) | Verdict::Panicked(_)
    ))
}
