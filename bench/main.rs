//! Measures settle: the verified planner against the same routine in plain Rust.
//!
//!     settle-bench                                    the tables
//!     settle-bench plain|verified FAMILY SEED TIMES   one book, for a profiler
//!
//! Ends with status 1 where the two disagree on a load, or a repeated settle costs so little that the compiler must
//! have left it out.

mod books;
mod plain;
mod verified;

use books::{BatchRow, Family, MachineRow, PaceKind, Sample, Size, FAMILIES, LARGEST};
use plain::{Backlog, Batch, Book, Even, Lots, Machine, Pace, Places, Terms, MACHINES};
use std::hint::black_box;
use std::time::{Duration, Instant};

const SEEDS: [u64; 5] = [1, 2, 3, 4, 5];

/// Each measurement is the least of so many.
const ROUNDS: usize = 30;

/// A settle's time is the difference between a call that settles once and one that settles so many times more.
const AGAIN: u32 = 4;

/// Fills a book, settles it once and `again` times more, and writes the loads; 0, or the refusal's number.
type Settle = fn(&[MachineRow], &[BatchRow], again: u32, loads: &mut [u32]) -> u8;

fn main() {
    let words: Vec<String> = std::env::args().skip(1).collect();
    match words.as_slice() {
        [] => std::process::exit(report()),
        [side, family, seed, times] => run_one(side, family, seed, times),
        _ => {
            eprintln!("usage: settle-bench [plain|verified FAMILY SEED TIMES]");
            std::process::exit(2);
        }
    }
}

/// Settles one book again and again.
fn run_one(side: &str, family: &str, seed: &str, times: &str) {
    let family = FAMILIES
        .iter()
        .find(|f| f.name == family)
        .expect("a family");
    let sample = family.sample(seed.parse().expect("a seed"), LARGEST);
    let settle = if side == "plain" {
        plain_side(sample.pace)
    } else {
        verified_side(sample.pace)
    };
    let times: u32 = times.parse().expect("a number of times");
    println!("{:?}", loads(&sample, settle, times.saturating_sub(1)));
}

fn plain_side(pace: PaceKind) -> Settle {
    match pace {
        PaceKind::Even => |m, b, again, loads| settle_plain(Even, m, b, again, loads),
        PaceKind::Lots => |m, b, again, loads| settle_plain(Lots, m, b, again, loads),
        PaceKind::Backlog => |m, b, again, loads| settle_plain(Backlog(Even), m, b, again, loads),
    }
}

fn verified_side(pace: PaceKind) -> Settle {
    match pace {
        PaceKind::Even => verified::even,
        PaceKind::Lots => verified::lots,
        PaceKind::Backlog => verified::backlog,
    }
}

fn settle_plain<P: Pace>(
    pace: P,
    machines: &[MachineRow],
    batches: &[BatchRow],
    again: u32,
    loads: &mut [u32],
) -> u8 {
    let rows: Vec<Machine> = machines.iter().map(plain_machine).collect();
    let batches: Vec<Batch> = batches
        .iter()
        .map(|batch| plain_batch(machines, batch))
        .collect();
    let book = Book::new(pace, &rows, &batches);
    let mut plan = black_box(&book).settle();
    for _ in 0..again {
        plan = black_box(&book).settle();
        black_box(&plan);
    }
    loads.copy_from_slice(&plan.loads()[..machines.len()]);
    0
}

fn plain_machine(row: &MachineRow) -> Machine {
    Machine {
        number: row.number,
        terms: Terms {
            ticks: row.ticks,
            lot: row.lot,
            backlog: row.backlog,
        },
    }
}

fn plain_batch(machines: &[MachineRow], row: &BatchRow) -> Batch {
    let mut word = 0;
    for &holder in &row.holders[..row.holder_count as usize] {
        let place = machines
            .iter()
            .position(|machine| machine.number == holder)
            .expect("a machine");
        word |= 1 << place;
    }
    Batch {
        blocks: row.blocks,
        holders: Places(word),
    }
}

/// The loads after settling; none where the book is refused.
fn loads(sample: &Sample, settle: Settle, again: u32) -> Option<Vec<u32>> {
    let mut loads = vec![0; sample.machines.len()];
    let refusal = settle(&sample.machines, &sample.batches, again, &mut loads);
    (refusal == 0).then_some(loads)
}

/// What was measured of one book, in microseconds.
#[derive(Clone, Copy)]
struct Measure {
    plain: f64,
    verified: f64,
    same_loads: bool,
    repeated: bool,
}

impl Measure {
    fn of(sample: &Sample) -> Measure {
        let plain = plain_side(sample.pace);
        let verified = verified_side(sample.pace);
        let expected = loads(sample, plain, 0);
        let same_loads = expected.is_some() && expected == loads(sample, verified, 0);
        let mut times = [Times::LONGEST; 2];
        // By turns, so that both meet the same disturbances.
        for _ in 0..ROUNDS {
            for (least, settle) in times.iter_mut().zip([plain, verified]) {
                least.once = least.once.min(time(sample, settle, 0));
                least.more = least.more.min(time(sample, settle, AGAIN));
            }
        }
        Measure {
            plain: times[0].of_one(),
            verified: times[1].of_one(),
            same_loads,
            repeated: times[1].tell_repeats(),
        }
    }

    fn ratio(&self) -> f64 {
        self.verified / self.plain
    }
}

/// The least times of a call that settles once and of one that settles `AGAIN` times more.
#[derive(Clone, Copy)]
struct Times {
    once: Duration,
    more: Duration,
}

impl Times {
    const LONGEST: Times = Times {
        once: Duration::MAX,
        more: Duration::MAX,
    };

    /// One settle, in microseconds.
    fn of_one(&self) -> f64 {
        self.more.saturating_sub(self.once).as_secs_f64() * 1e6 / f64::from(AGAIN)
    }

    /// The first call fills the book too, which costs no more than a few settles.
    fn tell_repeats(&self) -> bool {
        self.of_one() > 0.1 * self.once.as_secs_f64() * 1e6
    }
}

fn time(sample: &Sample, settle: Settle, again: u32) -> Duration {
    let mut loads = [0; MACHINES];
    let loads = &mut loads[..sample.machines.len()];
    let start = Instant::now();
    black_box(settle(&sample.machines, &sample.batches, again, loads));
    start.elapsed()
}

fn measure(family: &Family, size: Size) -> Vec<Measure> {
    SEEDS
        .iter()
        .map(|&seed| Measure::of(&family.sample(seed, size)))
        .collect()
}

/// The measures of one size: by family, and by book.
type Table = Vec<Vec<Measure>>;

fn sized(size: Size) -> Table {
    FAMILIES
        .iter()
        .map(|family| measure(family, size))
        .collect()
}

/// Prints the tables; the exit status.
fn report() -> i32 {
    let largest = sized(LARGEST);
    let fewer_blocks = [10_000, 100_000].map(|blocks| sized(Size { blocks, ..LARGEST }));
    let fewer_machines = [8, 16].map(|machines| {
        sized(Size {
            machines,
            ..LARGEST
        })
    });
    print_families(&largest);
    print_growth(
        "blocks",
        ["10,000", "100,000", "1,000,000"],
        [&fewer_blocks[0], &fewer_blocks[1], &largest],
    );
    print_growth(
        "machines",
        ["8", "16", "32"],
        [&fewer_machines[0], &fewer_machines[1], &largest],
    );
    let tables = [&largest].into_iter().chain(&fewer_blocks);
    let books: Vec<Measure> = tables.chain(&fewer_machines).flat_map(books_in).collect();
    println!(
        "All {} books of all sizes: in sum {:.2} times the plain version, on the worst book {:.2} times.",
        books.len(),
        ratio(&books),
        worst_ratio(&books)
    );
    let different = books.iter().filter(|m| !m.same_loads).count();
    let left_out = books.iter().filter(|m| !m.repeated).count();
    println!("Other loads than the plain version's: {different}. Repeats left out: {left_out}.");
    i32::from(different + left_out > 0)
}

fn books_in(table: &Table) -> Vec<Measure> {
    table.iter().flatten().copied().collect()
}

fn plain_sum(measures: &[Measure]) -> f64 {
    measures.iter().map(|m| m.plain).sum()
}

fn verified_sum(measures: &[Measure]) -> f64 {
    measures.iter().map(|m| m.verified).sum()
}

fn ratio(measures: &[Measure]) -> f64 {
    verified_sum(measures) / plain_sum(measures)
}

fn worst_ratio(measures: &[Measure]) -> f64 {
    measures.iter().map(Measure::ratio).fold(0.0, f64::max)
}

fn print_families(table: &Table) {
    println!("One settle, 32 machines, 128 batches, 1,000,000 blocks: µs, mean over the books; ratio = verified / plain.\n");
    println!("| family | plain | verified | ratio | ratio of each book |");
    println!("|---|---:|---:|---:|---|");
    for (family, measures) in FAMILIES.iter().zip(table) {
        let ratios: Vec<String> = measures
            .iter()
            .map(|m| format!("{:.2}", m.ratio()))
            .collect();
        print_family(family.name, measures, &ratios.join(" "));
    }
    let all = books_in(table);
    let worst = format!("at most {:.2}", worst_ratio(&all));
    print_family("all", &all, &worst);
    println!();
}

fn print_family(name: &str, measures: &[Measure], ratios: &str) {
    let count = measures.len() as f64;
    println!(
        "| {name} | {:.1} | {:.1} | {:.2} | {ratios} |",
        plain_sum(measures) / count,
        verified_sum(measures) / count,
        ratio(measures)
    );
}

fn print_growth(what: &str, sizes: [&str; 3], tables: [&Table; 3]) {
    let [least, middle, most] = sizes;
    println!("By {what}: µs of the verified version (ratio in sum, of the worst book); growth = the last time / the first, verified (plain).\n");
    println!("| family | {least} | {middle} | {most} | growth | most growth of a book |");
    println!("|---|---:|---:|---:|---:|---:|");
    for (f, family) in FAMILIES.iter().enumerate() {
        print_growth_row(family.name, tables.map(|table| table[f].clone()));
    }
    print_growth_row("all", tables.map(books_in));
    println!();
}

fn print_growth_row(name: &str, sizes: [Vec<Measure>; 3]) {
    let times = sizes.each_ref().map(|measures| {
        let mean = verified_sum(measures) / measures.len() as f64;
        format!(
            "{mean:.1} ({:.2}, {:.2})",
            ratio(measures),
            worst_ratio(measures)
        )
    });
    let [first, _, last] = &sizes;
    let growths = first.iter().zip(last).map(|(a, b)| b.verified / a.verified);
    println!(
        "| {name} | {} | {:.2} ({:.2}) | {:.2} |",
        times.join(" | "),
        verified_sum(last) / verified_sum(first),
        plain_sum(last) / plain_sum(first),
        growths.fold(0.0, f64::max)
    );
}
