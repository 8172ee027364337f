//! The points that were measured, by the number of events, and what is read off them.

/// Problems of so many clauses.
pub struct Point {
    pub clauses: u32,
    /// Clauses to events.
    pub ratio: f64,
    /// The share that has a plan, in percent.
    pub share: f64,
    /// The median of visits.
    pub visits: f64,
    /// Microseconds a problem: of the table, of the simple planner, and of z3 where it was there.
    pub times: Vec<f64>,
}

/// All points of so many events, by rising ratio.
pub struct Set {
    pub events: u32,
    pub points: Vec<Point>,
}

/// The sets of lines of events, clauses, share, visits and times; None where a line is not so.
pub fn sets(text: &str) -> Option<Vec<Set>> {
    let mut sets: Vec<Set> = Vec::new();
    for line in text.lines() {
        let numbers = line.split(' ').map(|word| word.parse().ok()).collect::<Option<Vec<f64>>>()?;
        let [events, clauses, share, visits, times @ ..] = &numbers[..] else { return None };
        let point = Point {
            clauses: *clauses as u32,
            ratio: clauses / events,
            share: *share,
            visits: *visits,
            times: times.to_vec(),
        };
        match sets.last_mut() {
            Some(set) if set.events == *events as u32 => set.points.push(point),
            _ => sets.push(Set { events: *events as u32, points: vec![point] }),
        }
    }
    Some(sets)
}

impl Set {
    /// The point with the most visits; the first of several.
    pub fn hardest(&self) -> &Point {
        let more = |most: &'_ Point, point: &Point| point.visits > most.visits;
        self.points.iter().fold(&self.points[0], |most, point| if more(most, point) { point } else { most })
    }

    /// The ratios of the first and the last point whose visits are at least 95 % of the most.
    pub fn hard(&self) -> (f64, f64) {
        let near: Vec<&Point> =
            self.points.iter().filter(|point| point.visits >= 0.95 * self.hardest().visits).collect();
        (near[0].ratio, near[near.len() - 1].ratio)
    }

    /// The ratio at which the share of plans first falls below one half, on the line between two points.
    pub fn half(&self) -> Option<f64> {
        let pair = self.points.windows(2).find(|pair| pair[0].share >= 50.0 && pair[1].share < 50.0)?;
        let part = (pair[0].share - 50.0) / (pair[0].share - pair[1].share);
        Some(pair[0].ratio + part * (pair[1].ratio - pair[0].ratio))
    }
}
