//! The facts that are added: seeded, so that every way and every run gets the same.

/// The facts that are asked to be added to one day.
pub const FACTS: usize = 30;

/// The farthest bound from 0.
const BOUND: i32 = 100;

/// The fact x − y ≤ c: a way from y to x of length c.
#[derive(Clone, Copy)]
pub struct Fact {
    pub x: usize,
    pub y: usize,
    pub c: i32,
}

/// Where the facts of the days come from.
#[derive(Clone, Copy)]
pub enum Kind {
    /// Any bounds: some facts contradict those before them.
    Any,
    /// Bounds that one hidden timetable keeps, so that every fact fits.
    Fitting,
}

/// Pseudorandom numbers: xorshift.
struct Random(u64);

impl Random {
    /// A number below the end, which is small.
    fn below(&mut self, end: usize) -> usize {
        self.0 ^= self.0 << 13;
        self.0 ^= self.0 >> 7;
        self.0 ^= self.0 << 17;
        ((self.0 >> 33) % end as u64) as usize
    }

    /// A number from the first to the last.
    fn within(&mut self, first: i32, last: i32) -> i32 {
        first + self.below((last - first + 1) as usize) as i32
    }
}

/// A day's facts about n events, two different ones in each.
fn day(random: &mut Random, kind: Kind, n: usize) -> Vec<Fact> {
    let times: Vec<i32> = (0..n).map(|_| random.within(0, BOUND)).collect();
    let fact = |_| {
        let x = random.below(n);
        let y = (x + 1 + random.below(n - 1)) % n;
        let least = match kind {
            Kind::Any => -BOUND,
            Kind::Fitting => times[x] - times[y],
        };
        Fact { x, y, c: random.within(least, BOUND) }
    };
    (0..FACTS).map(fact).collect()
}

/// The facts of so many days of n events.
pub fn days(seed: u64, kind: Kind, n: usize, count: usize) -> Vec<Vec<Fact>> {
    let mut random = Random(seed.wrapping_mul(0x9E37_79B9_7F4A_7C15) | 1);
    (0..count).map(|_| day(&mut random, kind, n)).collect()
}
