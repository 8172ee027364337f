//! One panel: a rectangle of the picture with a scale below and one at a side, and curves in it.

use crate::svg::{Anchor, Svg};

const GRID: &str = "stroke=\"#e4e4e4\" stroke-width=\"1\"";
const FRAME: &str = "stroke=\"#888888\" stroke-width=\"1\"";
const SMALL: &str = "font-size=\"12\" fill=\"#444444\"";

/// A scale from one number to another, even or by powers of ten.
#[derive(Clone, Copy)]
pub enum Scale {
    Even(f64, f64),
    Powers(f64, f64),
}

impl Scale {
    /// The number at the scale's end.
    pub fn end(self) -> f64 {
        match self {
            Scale::Even(_, to) | Scale::Powers(_, to) => to,
        }
    }

    /// How far a number lies from the scale's beginning to its end: 0 to 1.
    fn part(self, number: f64) -> f64 {
        match self {
            Scale::Even(from, to) => (number - from) / (to - from),
            Scale::Powers(from, to) => (number / from).log10() / (to / from).log10(),
        }
    }
}

pub struct Panel {
    pub left: f64,
    pub top: f64,
    pub width: f64,
    pub height: f64,
    pub across: Scale,
}

impl Panel {
    pub fn right(&self) -> f64 {
        self.left + self.width
    }

    pub fn bottom(&self) -> f64 {
        self.top + self.height
    }

    pub fn x(&self, number: f64) -> f64 {
        self.left + self.width * self.across.part(number)
    }

    pub fn y(&self, up: Scale, number: f64) -> f64 {
        self.bottom() - self.height * up.part(number)
    }

    pub fn frame(&self, svg: &mut Svg) {
        let (left, right, top, bottom) = (self.left, self.right(), self.top, self.bottom());
        svg.line(&[(left, top), (left, bottom), (right, bottom), (right, top), (left, top)], FRAME);
    }

    /// Lines upwards at the numbers, named below.
    pub fn name_across(&self, svg: &mut Svg, numbers: impl Iterator<Item = u32>) {
        for number in numbers {
            let x = self.x(f64::from(number));
            svg.line(&[(x, self.top), (x, self.bottom())], GRID);
            svg.text((x, self.bottom() + 17.0), Anchor::Middle, SMALL, &number.to_string());
        }
    }

    /// Lines across at the numbers, named at the left.
    pub fn name_left(&self, svg: &mut Svg, up: Scale, numbers: &[(f64, impl AsRef<str>)], named: bool) {
        for (number, name) in numbers {
            let y = self.y(up, *number);
            svg.line(&[(self.left, y), (self.right(), y)], GRID);
            if named {
                svg.text((self.left - 7.0, y + 4.0), Anchor::End, SMALL, name.as_ref());
            }
        }
    }

    /// The numbers of a second scale, at the right.
    pub fn name_right(&self, svg: &mut Svg, up: Scale, numbers: &[(f64, impl AsRef<str>)]) {
        for (number, name) in numbers {
            svg.text((self.right() + 7.0, self.y(up, *number) + 4.0), Anchor::Start, SMALL, name.as_ref());
        }
    }

    pub fn curve(&self, svg: &mut Svg, up: Scale, points: impl Iterator<Item = (f64, f64)>, style: &str) {
        let places: Vec<(f64, f64)> = points.map(|(x, y)| (self.x(x), self.y(up, y))).collect();
        svg.line(&places, style);
    }
}
