//! Sliders, by integer arithmetic on decoded bits: no float operation.

use crate::problem::{Refusal, FARTHEST_BOUND};

const FARTHEST_END: i64 = 4_096;
const GRID: i64 = 256;

/// A slider's kind with its calibration numbers, each as the 32 bits of a binary32.
#[derive(Clone, Copy, Debug, PartialEq, Eq)]
pub enum Kind {
    Span { low: u32, high: u32 },
    Rate { work: u32 },
    Fixed { value: u32 },
}

#[derive(Clone, Copy, Debug, PartialEq, Eq)]
pub enum Use {
    AtMost,
    AtLeast,
}

/// The slider's answer: the bound as its use takes it, or refusal 9, 10 or 11.
pub fn slide(kind: Kind, position: u32, used: Use) -> Result<i64, Refusal> {
    let value = match kind {
        Kind::Span { low, high } => span(end(low), end(high), place(position)),
        Kind::Rate { work } => rate(self::work(work), place(position)),
        Kind::Fixed { value } => Number::decoded(value).map(Number::value).ok_or(9),
    }?;
    match used {
        Use::AtMost => bound(value.floor()),
        Use::AtLeast => bound(value.ceiling()).map(|least| -least),
    }
}

/// The rounded number where it is a bound; 11 where it lies outside ±100,000.
fn bound(rounded: i64) -> Result<i64, Refusal> {
    if rounded.abs() > FARTHEST_BOUND {
        return Err(11);
    }
    Ok(rounded)
}

/// A Span's value, (256·low + (high − low)·k)/256.
fn span(low: Option<i64>, high: Option<i64>, k: Option<i64>) -> Result<Value, Refusal> {
    let (low, high, k) = (low.ok_or(9)?, high.ok_or(9)?, k.ok_or(9)?);
    Ok(Value { numerator: GRID * low + (high - low) * k, denominator: GRID })
}

/// A Rate's value, 256·work/k.
fn rate(work: Option<i64>, k: Option<i64>) -> Result<Value, Refusal> {
    let (work, k) = (work.ok_or(9)?, k.ok_or(9)?);
    if k == 0 {
        return Err(10);
    }
    Ok(Value { numerator: GRID * work, denominator: k })
}

/// An end of a Span: whole, −4,096 to 4,096.
fn end(bits: u32) -> Option<i64> {
    multiple(bits, 0).filter(|whole| whole.abs() <= FARTHEST_END)
}

/// A Rate's work: whole, 0 to 4,096.
fn work(bits: u32) -> Option<i64> {
    multiple(bits, 0).filter(|whole| (0..=FARTHEST_END).contains(whole))
}

/// The k of a position k/256: whole, 0 to 256.
fn place(bits: u32) -> Option<i64> {
    multiple(bits, 8).filter(|k| (0..=GRID).contains(k))
}

/// The number times 2 to the `shift`, where that is whole.
fn multiple(bits: u32, shift: i32) -> Option<i64> {
    let number = Number::decoded(bits)?;
    let shifted = Number { exponent: number.exponent + shift, ..number };
    shifted.is_whole().then(|| shifted.value().floor())
}

/// A value before it is rounded: numerator ÷ denominator, which is above 0.
#[derive(Clone, Copy)]
struct Value {
    numerator: i64,
    denominator: i64,
}

impl Value {
    /// The largest whole number not above it.
    fn floor(self) -> i64 {
        self.numerator.div_euclid(self.denominator)
    }

    /// The smallest whole number not below it.
    fn ceiling(self) -> i64 {
        -(-self.numerator).div_euclid(self.denominator)
    }
}

/// A finite binary32: mantissa times 2 to the exponent, negated where asked.
#[derive(Clone, Copy)]
struct Number {
    negative: bool,
    mantissa: i64,
    exponent: i32,
}

/// Smaller exponents are taken as this one: a number other than 0 stays between 0 and 1 in size.
const LEAST_EXPONENT: i32 = -62;

/// Greater exponents are taken as this one: the number stays past every range and bound.
const GREATEST_EXPONENT: i32 = 38;

impl Number {
    /// The number that the bits stand for; None for infinities and NaNs.
    fn decoded(bits: u32) -> Option<Number> {
        let negative = bits >> 31 == 1;
        let stored = (bits >> 23 & 0xff) as i32;
        let fraction = i64::from(bits & 0x7f_ffff);
        match stored {
            0xff => None,
            0 => Some(Number { negative, mantissa: fraction, exponent: -149 }),
            _ => Some(Number { negative, mantissa: fraction | 1 << 23, exponent: stored - 150 }),
        }
    }

    fn is_whole(self) -> bool {
        self.mantissa == 0 || self.exponent >= 0 || self.exponent.abs() <= self.mantissa.trailing_zeros() as i32
    }

    /// Its value; where the exponent is cut, one that is rounded and refused alike.
    fn value(self) -> Value {
        let signed = if self.negative { -self.mantissa } else { self.mantissa };
        let exponent = self.exponent.clamp(LEAST_EXPONENT, GREATEST_EXPONENT);
        if exponent < 0 {
            Value { numerator: signed, denominator: 1 << -exponent }
        } else {
            Value { numerator: signed << exponent, denominator: 1 }
        }
    }
}
