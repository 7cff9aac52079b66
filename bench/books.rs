//! The books that are measured: families of random books from fixed seeds.

use crate::plain::{BATCHES, MACHINES};

/// A machine as it crosses to the verified planner; the crate `bench_settle` has the same struct.
#[repr(C)]
#[derive(Clone, Copy)]
pub struct MachineRow {
    pub number: u16,
    pub ticks: u16,
    pub lot: u16,
    pub backlog: u32,
}

/// A batch as it crosses, the same struct there too: the first `holder_count` of `holders` are its holders' numbers, ascending.
#[repr(C)]
#[derive(Clone, Copy)]
pub struct BatchRow {
    pub blocks: u32,
    pub holder_count: u32,
    pub holders: [u16; MACHINES],
}

#[derive(Clone, Copy, PartialEq, Eq)]
pub enum PaceKind {
    Even,
    Lots,
    Backlog,
}

/// One book, with the pace that it is settled by.
pub struct Sample {
    pub pace: PaceKind,
    pub machines: Vec<MachineRow>,
    pub batches: Vec<BatchRow>,
}

#[derive(Clone, Copy)]
enum Ticks {
    Equal,
    Unequal,
}

#[derive(Clone, Copy)]
enum Holders {
    /// So many different places at random, at least and at most.
    Random(usize, usize),
    /// {1}, {1, 2}, {2, 3}, .. up to the last pair, and again.
    Chain,
    /// {1}, {1, 2}, {1, 2, 3}, .. up to all, and again.
    Nested,
}

pub struct Family {
    pub name: &'static str,
    pace: PaceKind,
    ticks: Ticks,
    holders: Holders,
}

pub const FAMILIES: [Family; 11] = [
    Family::new(
        "equal ticks",
        PaceKind::Even,
        Ticks::Equal,
        Holders::Random(2, 4),
    ),
    Family::new(
        "unequal ticks",
        PaceKind::Even,
        Ticks::Unequal,
        Holders::Random(2, 4),
    ),
    Family::new(
        "lots",
        PaceKind::Lots,
        Ticks::Unequal,
        Holders::Random(2, 4),
    ),
    Family::new(
        "lots, equal ticks",
        PaceKind::Lots,
        Ticks::Equal,
        Holders::Random(2, 4),
    ),
    Family::new(
        "chain, equal ticks",
        PaceKind::Even,
        Ticks::Equal,
        Holders::Chain,
    ),
    Family::new("chain", PaceKind::Even, Ticks::Unequal, Holders::Chain),
    Family::new(
        "nested, equal ticks",
        PaceKind::Even,
        Ticks::Equal,
        Holders::Nested,
    ),
    Family::new("nested", PaceKind::Even, Ticks::Unequal, Holders::Nested),
    Family::new(
        "dense",
        PaceKind::Even,
        Ticks::Unequal,
        Holders::Random(16, 32),
    ),
    Family::new(
        "backlogs",
        PaceKind::Backlog,
        Ticks::Equal,
        Holders::Random(2, 4),
    ),
    Family::new(
        "backlogs, unequal ticks",
        PaceKind::Backlog,
        Ticks::Unequal,
        Holders::Random(2, 4),
    ),
];

/// How large a book is.
#[derive(Clone, Copy)]
pub struct Size {
    pub machines: usize,
    pub blocks: u32,
}

pub const LARGEST: Size = Size {
    machines: MACHINES,
    blocks: 1_000_000,
};

impl Family {
    const fn new(name: &'static str, pace: PaceKind, ticks: Ticks, holders: Holders) -> Family {
        Family {
            name,
            pace,
            ticks,
            holders,
        }
    }

    /// The family's book of a seed. At another number of blocks it is the same book, scaled.
    pub fn sample(&self, seed: u64, size: Size) -> Sample {
        let mut random = Random::new(seed);
        let machines = self.machines(&mut random, size.machines);
        let sets = self.sets(&mut random, size.machines);
        let blocks = parts(&mut random, size.blocks);
        let batches = sets
            .iter()
            .zip(blocks)
            .map(|(set, blocks)| batch(&machines, set, blocks));
        Sample {
            pace: self.pace,
            batches: batches.collect(),
            machines,
        }
    }

    fn machines(&self, random: &mut Random, count: usize) -> Vec<MachineRow> {
        let mut number = 0;
        let common = random.between(1, 9_999) as u16;
        let row = |_| {
            number += random.between(1, 300) as u16;
            MachineRow {
                number,
                ticks: match self.ticks {
                    Ticks::Equal => common,
                    Ticks::Unequal => random.between(1, 9_999) as u16,
                },
                lot: random.between(300, 999) as u16,
                backlog: random.between(0, 999_999) as u32,
            }
        };
        (0..count).map(row).collect()
    }

    /// A set of places for each batch, ascending.
    fn sets(&self, random: &mut Random, machines: usize) -> Vec<Vec<usize>> {
        let set = |b: usize| match self.holders {
            Holders::Random(least, most) => {
                let count = random.between(least.min(machines), most.min(machines));
                random.places(machines, count)
            }
            Holders::Chain => match b % machines {
                0 => vec![0],
                last => vec![last - 1, last],
            },
            Holders::Nested => (0..b % machines + 1).collect(),
        };
        (0..BATCHES).map(set).collect()
    }
}

fn batch(machines: &[MachineRow], set: &[usize], blocks: u32) -> BatchRow {
    let mut holders = [0; MACHINES];
    for (holder, &place) in holders.iter_mut().zip(set) {
        *holder = machines[place].number;
    }
    BatchRow {
        blocks,
        holder_count: set.len() as u32,
        holders,
    }
}

/// Random parts, at least 1 each, that add up to the whole.
fn parts(random: &mut Random, whole: u32) -> Vec<u32> {
    let weights: Vec<u64> = (0..BATCHES)
        .map(|_| random.between(1, 1_000) as u64)
        .collect();
    let all: u64 = weights.iter().sum();
    let share = |weight: &u64| (weight * u64::from(whole) / all).max(1) as u32;
    let mut parts: Vec<u32> = weights.iter().map(share).collect();
    // What rounding left over goes to the largest part, or comes from it.
    let largest = (0..BATCHES).max_by_key(|&b| parts[b]).unwrap_or(0);
    let others: u32 = parts.iter().sum::<u32>() - parts[largest];
    parts[largest] = whole - others;
    parts
}

/// xorshift64*.
struct Random(u64);

impl Random {
    fn new(seed: u64) -> Random {
        let mut random = Random(seed.wrapping_mul(0x9E37_79B9_7F4A_7C15) | 1);
        for _ in 0..8 {
            random.next();
        }
        random
    }

    fn next(&mut self) -> u64 {
        self.0 ^= self.0 >> 12;
        self.0 ^= self.0 << 25;
        self.0 ^= self.0 >> 27;
        self.0.wrapping_mul(0x2545_F491_4F6C_DD1D)
    }

    fn between(&mut self, low: usize, high: usize) -> usize {
        low + ((self.next() >> 32) as usize) % (high - low + 1)
    }

    /// So many different places, ascending.
    fn places(&mut self, all: usize, count: usize) -> Vec<usize> {
        let mut places: Vec<usize> = (0..all).collect();
        while places.len() > count {
            let place = self.between(0, places.len() - 1);
            places.remove(place);
        }
        places
    }
}
