//! Random calls and questions, as text.

/// Random numbers, which a seed decides.
pub struct Random(u64);

impl Random {
    pub fn new(seed: u64) -> Random {
        Random(seed)
    }

    /// A number below `end`.
    pub fn below(&mut self, end: u64) -> u64 {
        self.0 = self.0.wrapping_add(0x9e37_79b9_7f4a_7c15);
        let mut mixed = self.0;
        mixed = (mixed ^ (mixed >> 30)).wrapping_mul(0xbf58_476d_1ce4_e5b9);
        mixed = (mixed ^ (mixed >> 27)).wrapping_mul(0x94d0_49bb_1331_11eb);
        (mixed ^ (mixed >> 31)) % end
    }

    /// Whether one of so many comes up.
    pub fn one_in(&mut self, many: u64) -> bool {
        self.below(many) == 0
    }

    fn pick(&mut self, letters: &str) -> char {
        let at = self.below(letters.len() as u64) as usize;
        char::from(letters.as_bytes()[at])
    }
}

/// A kind of container, as far as the text of its rows is another.
#[derive(Clone, Copy)]
pub struct Kind {
    /// The name of its kind.
    pub name: &'static str,
    /// The name of the containers that the rows are for.
    pub containers: &'static str,
    pub is_closed: bool,
    pub is_map: bool,
}

/// The four kinds.
pub const KINDS: [Kind; 4] = [
    kind("map", "map u32 char", false, true),
    kind("imap", "imap u32 char", true, true),
    kind("set", "set u32", false, false),
    kind("iset", "iset u32", true, false),
];

const fn kind(name: &'static str, containers: &'static str, is_closed: bool, is_map: bool) -> Kind {
    Kind {
        name,
        containers,
        is_closed,
        is_map,
    }
}

/// The words of the operators of sets.
const OPERATORS: [&str; 4] = ["or", "and", "without", "xor"];

/// Keys lie below this, but for some near the last one.
const KEYS: u64 = 60;

impl Kind {
    /// A call, which is an `extend` or that of an operator only where these may be made.
    pub fn call(self, random: &mut Random, may_extend: bool) -> String {
        match random.below(40) {
            0 => "clear".to_owned(),
            1..=2 => "clone".to_owned(),
            3..=5 if may_extend => format!("extend {}", self.list(random, " + "))
                .trim_end()
                .to_owned(),
            3..=13 => format!("remove {}", self.range(random)),
            14..=17 if may_extend && !self.is_map => self.operator(random),
            _ => format!("insert {}", self.pair(random)),
        }
    }

    // The call of an operator of sets.
    fn operator(self, random: &mut Random) -> String {
        let word = OPERATORS[random.below(OPERATORS.len() as u64) as usize];
        let list = self.list(random, " + ");
        format!("{word} {list}").trim_end().to_owned()
    }

    /// A key.
    pub fn key(self, random: &mut Random) -> u32 {
        if random.one_in(24) {
            u32::MAX - random.below(5) as u32
        } else {
            random.below(KEYS) as u32
        }
    }

    /// A range that may be empty or reversed.
    pub fn query(self, random: &mut Random) -> String {
        if random.one_in(4) {
            let start = self.key(random);
            self.text(start, self.key(random))
        } else {
            self.range(random)
        }
    }

    /// Up to four pairs, with a separator between two.
    pub fn list(self, random: &mut Random, separator: &str) -> String {
        let pairs = (0..random.below(5)).map(|_| self.pair(random));
        pairs.collect::<Vec<_>>().join(separator)
    }

    // A range that has a key, and most often few.
    fn range(self, random: &mut Random) -> String {
        let start = self.key(random);
        let end = if random.one_in(6) {
            self.key(random)
        } else {
            start.saturating_add(random.below(9) as u32)
        };
        let (start, end) = (start.min(end), start.max(end));
        match (self.is_closed || start < end, end) {
            (true, _) => self.text(start, end),
            (false, u32::MAX) => self.text(start - 1, end),
            (false, _) => self.text(start, end + 1),
        }
    }

    /// A pair. A set has a range alone.
    pub fn pair(self, random: &mut Random) -> String {
        let range = self.range(random);
        if self.is_map {
            format!("{range} {}", random.pick("abc"))
        } else {
            range
        }
    }

    fn text(self, start: u32, end: u32) -> String {
        let dots = if self.is_closed { "..=" } else { ".." };
        format!("{start}{dots}{end}")
    }
}

/// What is taken from both ends of an iterator, or nothing, which takes all.
pub fn both_ends(random: &mut Random) -> String {
    letters(random, "ffbb#")
}

/// What is taken of items that are made when they are asked for.
pub fn one_end(random: &mut Random) -> String {
    match random.below(6) {
        0 => "N".to_owned(),
        1 => "T".to_owned(),
        _ => letters(random, "nntt#"),
    }
}

fn letters(random: &mut Random, letters: &str) -> String {
    if random.one_in(2) {
        return String::new();
    }
    let count = 1 + random.below(6);
    (0..count).map(|_| random.pick(letters)).collect()
}
