//! Settle in plain safe Rust: the baseline that the verified planner is measured against.
//!
//! A book has machines and batches; every block of a batch is to be sent by one of the batch's
//! holders. Settle finds the share-out that has the fewest blocks after every mark. It puts each batch
//! on its first holder, and then moves blocks along chains of machines until no move helps: first many
//! blocks at a time, at last single ones.
//!
//! Machines are relieved from the latest mark down. Where no chain from a machine helps, the machine and all
//! that it leads to are exhausted for the rest of the run: no later move helps these.

pub const MACHINES: usize = 32;
pub const BATCHES: usize = 128;

/// The least numbers of blocks that are moved together, one run after the other.
const WIDTHS: [u32; 5] = [4_096, 512, 64, 8, 1];

/// No moment is later.
const LATEST: u64 = 99_999_999_999;

/// From this count on a pace stays level.
const MOST_BLOCKS: u32 = 1_000_000;

#[derive(Clone, Copy, Default)]
pub struct Terms {
    pub ticks: u16,
    pub lot: u16,
    pub backlog: u32,
}

/// When a machine ends its k-th block.
pub trait Pace {
    fn moment(&self, terms: Terms, k: u32) -> u64;
}

/// Every block takes the machine's ticks.
pub struct Even;

impl Pace for Even {
    fn moment(&self, terms: Terms, k: u32) -> u64 {
        u64::from(k.min(MOST_BLOCKS)) * u64::from(terms.ticks)
    }
}

/// A block ends when its lot does.
pub struct Lots;

impl Pace for Lots {
    fn moment(&self, terms: Terms, k: u32) -> u64 {
        let lot = u32::from(terms.lot.max(1));
        u64::from(k.min(MOST_BLOCKS).next_multiple_of(lot)) * u64::from(terms.ticks)
    }
}

/// The backlog comes before the first block.
pub struct Backlog<P>(pub P);

impl<P: Pace> Pace for Backlog<P> {
    fn moment(&self, terms: Terms, k: u32) -> u64 {
        if k == 0 {
            return 0;
        }
        LATEST.min(self.0.moment(terms, k) + u64::from(terms.backlog))
    }
}

/// A set of places below 32, as one word.
#[derive(Clone, Copy, PartialEq, Eq)]
pub struct Places(pub u32);

impl Places {
    const NONE: Places = Places(0);

    fn only(place: usize) -> Places {
        Places(1 << place)
    }

    fn contains(self, place: usize) -> bool {
        self.0 >> place & 1 == 1
    }

    fn with(self, place: usize) -> Places {
        self.union(Places::only(place))
    }

    fn union(self, other: Places) -> Places {
        Places(self.0 | other.0)
    }

    fn minus(self, other: Places) -> Places {
        Places(self.0 & !other.0)
    }

    fn is_empty(self) -> bool {
        self.0 == 0
    }

    /// The lowest place.
    fn first(self) -> Option<usize> {
        (!self.is_empty()).then(|| self.0.trailing_zeros() as usize)
    }
}

/// The places of a set, the lowest first.
impl Iterator for Places {
    type Item = usize;

    fn next(&mut self) -> Option<usize> {
        let place = self.first()?;
        self.0 &= self.0 - 1;
        Some(place)
    }
}

#[derive(Clone, Copy, Default)]
pub struct Machine {
    pub number: u16,
    pub terms: Terms,
}

#[derive(Clone, Copy)]
pub struct Batch {
    pub blocks: u32,
    /// Never empty, and places of machines.
    pub holders: Places,
}

/// Where a block stands in the order of all blocks.
#[derive(Clone, Copy)]
struct Mark {
    moment: u64,
    number: u16,
}

impl Mark {
    fn is_before(self, other: Mark) -> bool {
        self.moment < other.moment || self.moment == other.moment && self.number < other.number
    }
}

/// Machines in ascending number, and batches.
pub struct Book<P> {
    pace: P,
    machines: [Machine; MACHINES],
    places: Places,
    blocks: [u32; BATCHES],
    holders: [Places; BATCHES],
    batch_count: usize,
}

impl<P: Pace> Book<P> {
    pub fn new(pace: P, machines: &[Machine], batches: &[Batch]) -> Book<P> {
        let mut book = Book {
            pace,
            machines: [Machine::default(); MACHINES],
            places: (0..machines.len()).fold(Places::NONE, Places::with),
            blocks: [0; BATCHES],
            holders: [Places::NONE; BATCHES],
            batch_count: batches.len(),
        };
        book.machines[..machines.len()].copy_from_slice(machines);
        for (b, batch) in batches.iter().enumerate() {
            book.blocks[b] = batch.blocks;
            book.holders[b] = batch.holders;
        }
        book
    }

    fn holders(&self) -> &[Places] {
        &self.holders[..self.batch_count]
    }

    /// The mark of the k-th block of the machine at a place.
    fn mark(&self, place: usize, k: u32) -> Mark {
        let machine = &self.machines[place];
        Mark {
            moment: self.pace.moment(machine.terms, k),
            number: machine.number,
        }
    }

    pub fn settle(&self) -> Plan<'_, P> {
        let mut plan = Plan::on_first_holders(self);
        for width in WIDTHS {
            plan.level(width);
        }
        plan
    }
}

/// How many blocks of each batch each machine has, and how many it has in all.
pub struct Plan<'a, P> {
    book: &'a Book<P>,
    shares: [[u32; BATCHES]; MACHINES],
    loads: [u32; MACHINES],
}

impl<'a, P: Pace> Plan<'a, P> {
    fn on_first_holders(book: &'a Book<P>) -> Plan<'a, P> {
        let mut plan = Plan {
            book,
            shares: [[0; BATCHES]; MACHINES],
            loads: [0; MACHINES],
        };
        for (b, holders) in book.holders().iter().enumerate() {
            if let Some(place) = holders.first() {
                plan.shares[place][b] = book.blocks[b];
                plan.loads[place] += book.blocks[b];
            }
        }
        plan
    }

    /// The load of every place; 0 where there is no machine.
    pub fn loads(&self) -> &[u32; MACHINES] {
        &self.loads
    }

    /// Moves blocks along chains, at least `width` at a time, until no such move helps.
    fn level(&mut self, width: u32) {
        let mut next = Next::of(self, width);
        let mut exhausted = Places::NONE;
        while let Some(from) = self.latest(exhausted, width) {
            let reach = Reach::past(exhausted, from, &next);
            if !self.relieve(&mut next, &reach, from, width) {
                exhausted = exhausted.union(reach.places);
            }
        }
    }

    /// The place with the latest mark of the first of its last `width` blocks, of those that are not exhausted.
    fn latest(&self, exhausted: Places, width: u32) -> Option<usize> {
        let mut latest: Option<(Mark, usize)> = None;
        for place in self.book.places.minus(exhausted) {
            if self.loads[place] >= width {
                let mark = self.book.mark(place, self.loads[place] - width + 1);
                if latest.is_none_or(|(best, _)| best.is_before(mark)) {
                    latest = Some((mark, place));
                }
            }
        }
        latest.map(|(_, place)| place)
    }

    /// Moves blocks from a place along a chain that helps, if there is one.
    fn relieve(&mut self, next: &mut Next, reach: &Reach, from: usize, width: u32) -> bool {
        let to = self.earliest(reach.places, from, width);
        if !self.helps(from, to, width) {
            return false;
        }
        let want = self.most(from, to, width);
        let got = self.augment(next, reach, from, to, want);
        self.loads[from] -= got;
        self.loads[to] += got;
        true
    }

    /// The place of a set with the earliest mark of the `width`-th block from now.
    fn earliest(&self, places: Places, from: usize, width: u32) -> usize {
        let mut earliest = from;
        let mut best = self.book.mark(from, self.loads[from] + width);
        for place in places {
            let mark = self.book.mark(place, self.loads[place] + width);
            if mark.is_before(best) {
                earliest = place;
                best = mark;
            }
        }
        earliest
    }

    /// Whether the last `amount` blocks of one place end earlier at another.
    fn helps(&self, from: usize, to: usize, amount: u32) -> bool {
        let gained = self.book.mark(to, self.loads[to] + amount);
        let lost = self.book.mark(from, self.loads[from] - amount + 1);
        gained.is_before(lost)
    }

    /// The most blocks that it helps to move, if it helps for `width`.
    fn most(&self, from: usize, to: usize, width: u32) -> u32 {
        let mut low = width;
        let mut high = self.loads[from];
        while low < high {
            let middle = high - (high - low) / 2;
            if self.helps(from, to, middle) {
                low = middle;
            } else {
                high = middle - 1;
            }
        }
        low
    }

    /// Moves up to `want` blocks along the chain that leads to a place: as many as every link allows.
    fn augment(
        &mut self,
        next: &mut Next,
        reach: &Reach,
        from: usize,
        to: usize,
        want: u32,
    ) -> u32 {
        if to == from {
            return want;
        }
        let before = usize::from(reach.before[to]);
        let batch = self.link(before, to);
        let got = self.augment(
            next,
            reach,
            from,
            before,
            want.min(self.shares[before][batch]),
        );
        self.shares[before][batch] -= got;
        self.shares[to][batch] += got;
        next.lose(self, before, batch);
        next.gain(self, to, batch);
        got
    }

    /// The batch with the most blocks at one place, of those that another place holds.
    fn link(&self, place: usize, other: usize) -> usize {
        let shares = &self.shares[place];
        let mut link = 0;
        let mut most = 0;
        for b in 0..self.book.batch_count {
            if shares[b] > most && self.book.holders[b].contains(other) {
                link = b;
                most = shares[b];
            }
        }
        link
    }
}

/// Where each place leads: to the holders of the batches of which it has at least `width` blocks.
struct Next {
    width: u32,
    places: [Places; MACHINES],
}

impl Next {
    fn of<P: Pace>(plan: &Plan<P>, width: u32) -> Next {
        let mut next = Next {
            width,
            places: [Places::NONE; MACHINES],
        };
        for place in plan.book.places {
            next.places[place] = next.leads(plan, place);
        }
        next
    }

    fn leads<P: Pace>(&self, plan: &Plan<P>, place: usize) -> Places {
        let mut all = Places::NONE;
        for (&share, &holders) in plan.shares[place].iter().zip(plan.book.holders()) {
            let wide = share >= self.width;
            all = all.union(if wide { holders } else { Places::NONE });
        }
        all
    }

    /// Brings a place up to date that lost blocks of a batch.
    fn lose<P: Pace>(&mut self, plan: &Plan<P>, place: usize, batch: usize) {
        if plan.shares[place][batch] < self.width {
            self.places[place] = self.leads(plan, place);
        }
    }

    /// Brings a place up to date that gained blocks of a batch.
    fn gain<P: Pace>(&mut self, plan: &Plan<P>, place: usize, batch: usize) {
        if plan.shares[place][batch] >= self.width {
            self.places[place] = self.places[place].union(plan.book.holders[batch]);
        }
    }
}

/// The places that a place leads to by chains past no exhausted one, and the place before each.
struct Reach {
    places: Places,
    before: [u8; MACHINES],
}

impl Reach {
    /// Breadth first, layer by layer, from the place and the exhausted ones, which lead only to exhausted ones.
    fn past(exhausted: Places, start: usize, next: &Next) -> Reach {
        let mut before = [0; MACHINES];
        let mut seen = exhausted.with(start);
        let mut layer = seen;
        while !layer.is_empty() {
            let mut found = Places::NONE;
            for place in layer {
                let new = next.places[place].minus(seen);
                seen = seen.union(new);
                found = found.union(new);
                for other in new {
                    before[other] = place as u8;
                }
            }
            layer = found;
        }
        Reach {
            places: seen.minus(exhausted),
            before,
        }
    }
}
