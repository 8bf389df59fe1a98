//! The inputs, which both sides get.

/// How many ranges there are.
pub const SIZES: [usize; 6] = [10, 100, 1_000, 10_000, 100_000, 1_000_000];

/// What one call gets.
pub struct Input {
    pub entries: Vec<Entry>,
    pub queries: Vec<Query>,
}

/// The keys from `start` up to, and without, `end`, and their value.
#[repr(C)]
#[derive(Clone, Copy)]
pub struct Entry {
    pub start: u64,
    pub end: u64,
    pub value: u32,
    /// Fills the struct up to its alignment. Nothing reads it.
    pub pad: u32,
}

/// The keys from `start` up to, and without, `end`.
#[repr(C)]
#[derive(Clone, Copy)]
pub struct Query {
    pub start: u64,
    pub end: u64,
}

/// How far the starts of ranges in order are apart.
const SPACING: u64 = 100;

/// `count` ranges in order, which don't touch and cover about half of the keys.
pub fn in_order(count: usize) -> Vec<Entry> {
    in_order_by(count, Random(count as u64))
}

fn in_order_by(count: usize, mut random: Random) -> Vec<Entry> {
    let entry = |at: u64| {
        let start = at * SPACING;
        let end = start + 1 + random.below(SPACING - 1);
        Entry {
            start,
            end,
            value: random.next() as u32,
            pad: 0,
        }
    };
    (0..count as u64).map(entry).collect()
}

/// The same ranges in a random order, another for each seed.
pub fn shuffled(count: usize, seed: u64) -> Vec<Entry> {
    let mut entries = in_order(count);
    let mut random = Random(count as u64 ^ 77 ^ (seed << 32));
    for at in (1..entries.len()).rev() {
        entries.swap(at, random.below(at as u64 + 1) as usize);
    }
    entries
}

/// `2 * count` ranges with few values, in a random order over so few keys that about `count` stand
/// in the end; others for each seed.
pub fn overlapping(count: usize, seed: u64) -> Vec<Entry> {
    let mut random = Random(count as u64 ^ 4242 ^ (seed << 32));
    let length = 1000;
    let keys = (count as u64 * length / 2).max(2 * length);
    let entry = |_| {
        let start = random.below(keys);
        let end = start + 1 + random.below(2 * length);
        Entry {
            start,
            end,
            value: random.below(8) as u32,
            pad: 0,
        }
    };
    (0..2 * count).map(entry).collect()
}

/// Queries at random places, of up to `longest` keys, over the keys of `count` ranges in order.
pub fn queries(count: usize, number: usize, longest: u64) -> Vec<Query> {
    let mut random = Random(count as u64 ^ longest ^ 99);
    let query = |_| {
        let start = random.below(SPACING * count as u64);
        Query {
            start,
            end: start + 1 + random.below(longest),
        }
    };
    (0..number).map(query).collect()
}

/// Queries that each meet about ten of `count` ranges in order.
pub fn wide_queries(count: usize, number: usize) -> Vec<Query> {
    let wide = |query: Query| Query {
        start: query.start,
        end: query.start + 10 * SPACING,
    };
    queries(count, number, 1).into_iter().map(wide).collect()
}

/// Two sets of `count` ranges in order, others for each seed. A range of the second one begins
/// half a spacing behind one of the first; about one in two overlaps it, and one in two the next.
pub fn two_sets(count: usize, seed: u64) -> Input {
    let ranges = |side: u64| in_order_by(count, Random(count as u64 ^ side ^ (seed << 32)));
    let behind = |entry: Entry| Query {
        start: entry.start + SPACING / 2,
        end: entry.end + SPACING / 2,
    };
    Input {
        entries: ranges(1_001),
        queries: ranges(2_002).into_iter().map(behind).collect(),
    }
}

/// SplitMix64.
pub struct Random(u64);

impl Random {
    pub fn new(seed: u64) -> Random {
        Random(seed)
    }

    fn next(&mut self) -> u64 {
        self.0 = self.0.wrapping_add(0x9E37_79B9_7F4A_7C15);
        let mut mixed = self.0;
        mixed = (mixed ^ (mixed >> 30)).wrapping_mul(0xBF58_476D_1CE4_E5B9);
        mixed = (mixed ^ (mixed >> 27)).wrapping_mul(0x94D0_49BB_1331_11EB);
        mixed ^ (mixed >> 31)
    }

    /// A number below the limit.
    pub fn below(&mut self, limit: u64) -> u64 {
        ((u128::from(self.next()) * u128::from(limit)) >> 64) as u64
    }
}
