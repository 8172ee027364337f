//! The picture: a column for each number of events, the search above and the times below.

use crate::panel::{Panel, Scale};
use crate::points::Set;
use crate::svg::{Anchor, Svg};

const WIDTH: f64 = 1135.0;
const HEIGHT: f64 = 790.0;
const COLUMN: f64 = 310.0;
const MARGIN: f64 = 75.0;

const VISITS: &str = "#1b1b1b";
const SHARE: &str = "#b0368c";
const TABLE: &str = "#1f62b4";
const SIMPLE: &str = "#d97a1a";
const Z3: &str = "#3d8f4f";

const RATIOS: Scale = Scale::Even(0.0, 11.0);
const SHARES: Scale = Scale::Even(0.0, 100.0);
const MICROS: Scale = Scale::Powers(1.0, 10_000.0);

pub fn picture(sets: &[Set]) -> String {
    let mut svg = Svg::new(WIDTH, HEIGHT);
    titles(&mut svg);
    legend(&mut svg, 96.0, &[(VISITS, false, "Visits (median)"), (SHARE, true, "Share of problems with a plan")]);
    legend(
        &mut svg,
        446.0,
        &[(TABLE, false, "table"), (SIMPLE, false, "simple planner"), (Z3, false, "z3, push and pop")],
    );
    let visits = visits_scale(sets);
    for (column, set) in sets.iter().enumerate() {
        let left = MARGIN + column as f64 * (COLUMN + 20.0);
        let at = |top| Panel { left, top, width: COLUMN, height: 275.0, across: RATIOS };
        let (first, last) = (column == 0, column + 1 == sets.len());
        search(&mut svg, &at(112.0), set, visits, first, last);
        times(&mut svg, &at(462.0), set, first);
    }
    svg.text((WIDTH / 2.0, HEIGHT - 12.0), Anchor::Middle, "", "Ratio of clauses to events");
    svg.end()
}

/// What is shown, and what the bars at the top of the upper panels are.
fn titles(svg: &mut Svg) {
    let about = "Random clauses of two alternatives, bounds within ±100, against the ratio of clauses to events.";
    let bars =
        "Bars: where 000, with 10 to 20 events, has half with a plan (5 to 6) and its hardest problems (6 to 7).";
    svg.text((MARGIN, 28.0), Anchor::Start, "font-size=\"17\" font-weight=\"bold\"", "Easy, hard, easy");
    svg.text((MARGIN, 50.0), Anchor::Start, "fill=\"#444444\"", about);
    svg.text((MARGIN, 68.0), Anchor::Start, "fill=\"#444444\"", bars);
}

/// Names of curves, each after a piece of it.
fn legend(svg: &mut Svg, y: f64, curves: &[(&str, bool, &str)]) {
    let mut x = MARGIN;
    for (colour, dashed, name) in curves {
        svg.line(&[(x, y), (x + 30.0, y)], &style(colour, *dashed));
        svg.text((x + 37.0, y + 4.0), Anchor::Start, "", name);
        x += 60.0 + 7.5 * name.len() as f64;
    }
}

fn style(colour: &str, dashed: bool) -> String {
    let dashes = if dashed { " stroke-dasharray=\"6 4\"" } else { "" };
    format!("stroke=\"{colour}\" stroke-width=\"2\"{dashes}")
}

/// From 0 to the next ten above the most visits and a little room.
fn visits_scale(sets: &[Set]) -> Scale {
    let most = sets.iter().map(|set| set.hardest().visits).fold(0.0, f64::max);
    Scale::Even(0.0, 10.0 * (1.12 * most / 10.0).ceil())
}

/// The upper panel: the median of visits, and the share of plans.
fn search(svg: &mut Svg, panel: &Panel, set: &Set, visits: Scale, first: bool, last: bool) {
    name_search(svg, panel, visits, first, last);
    for (from, to, colour) in [(5.0, 6.0, SHARE), (6.0, 7.0, VISITS)] {
        svg.rectangle((panel.x(from), panel.top), (panel.x(to) - panel.x(from), 6.0), colour);
    }
    panel.curve(svg, SHARES, set.points.iter().map(|point| (point.ratio, point.share)), &style(SHARE, true));
    panel.curve(svg, visits, set.points.iter().map(|point| (point.ratio, point.visits)), &style(VISITS, false));
    panel.frame(svg);
    marks(svg, panel, set, visits);
    let title = format!("{} events", set.events);
    svg.text((panel.right() - 10.0, panel.top + 26.0), Anchor::End, "font-weight=\"bold\"", &title);
}

/// The scales of an upper panel: the visits at the left of the first, the shares at the right of the last.
fn name_search(svg: &mut Svg, panel: &Panel, visits: Scale, first: bool, last: bool) {
    let middle = panel.top + panel.height / 2.0;
    let tens: Vec<(f64, String)> = (0..=visits.end() as u32 / 10).map(|ten| named(10 * ten, "")).collect();
    let quarters: Vec<(f64, String)> = (0..=4).map(|quarter| named(25 * quarter, " %")).collect();
    panel.name_across(svg, 0..=10);
    panel.name_left(svg, visits, &tens, first);
    if first {
        svg.upright((panel.left - 45.0, middle), "", "Visits (median)");
    }
    if last {
        panel.name_right(svg, SHARES, &quarters);
        svg.upright((panel.right() + 62.0, middle), "", "Share of problems with a plan");
    }
}

/// A number of a scale and its name.
fn named(number: u32, unit: &str) -> (f64, String) {
    (f64::from(number), format!("{number}{unit}"))
}

/// Dots at the most visits and at the ratio where half have a plan, each with its ratio.
fn marks(svg: &mut Svg, panel: &Panel, set: &Set, visits: Scale) {
    let hardest = set.hardest();
    let rising = if hardest.clauses == set.points[set.points.len() - 1].clauses { ", the last" } else { "" };
    let name = format!("{} at {:.1}{rising}", hardest.visits, hardest.ratio);
    mark(svg, (panel.x(hardest.ratio), panel.y(visits, hardest.visits)), VISITS, &name);
    if let Some(half) = set.half() {
        mark(svg, (panel.x(half), panel.y(SHARES, 50.0)), SHARE, &format!("half at {half:.1}"));
    }
}

/// A dot and its name, which keeps the curves behind it off.
fn mark(svg: &mut Svg, (x, y): (f64, f64), colour: &str, name: &str) {
    let style = format!("fill=\"{colour}\" stroke=\"#ffffff\" stroke-width=\"4\" paint-order=\"stroke\"");
    svg.dot((x, y), colour);
    svg.text((x + 8.0, y - 8.0), Anchor::Start, &style, name);
}

/// The lower panel: microseconds a problem, by powers of ten.
fn times(svg: &mut Svg, panel: &Panel, set: &Set, first: bool) {
    let powers = [(1.0, "1"), (10.0, "10"), (100.0, "100"), (1_000.0, "1,000"), (10_000.0, "10,000")];
    panel.name_across(svg, 0..=10);
    panel.name_left(svg, MICROS, &powers, first);
    if first {
        svg.upright((panel.left - 52.0, panel.top + panel.height / 2.0), "", "Microseconds a problem");
    }
    for (which, colour) in [TABLE, SIMPLE, Z3].into_iter().enumerate() {
        let curve = set.points.iter().filter_map(|point| Some((point.ratio, *point.times.get(which)?)));
        panel.curve(svg, MICROS, curve, &style(colour, false));
    }
    panel.frame(svg);
    let title = format!("{} events", set.events);
    svg.text((panel.right() - 10.0, panel.bottom() - 12.0), Anchor::End, "font-weight=\"bold\"", &title);
}
