//! Slider requests: every kind, on and off the grid, values around the bound's limits and whole numbers, and the
//! odd binary32 numbers.

use crate::dialogue::Request;
use crate::problem::FARTHEST_BOUND;
use crate::random::Random;
use crate::slider::{Kind, Use};

/// Bits of numbers at the edges of binary32: infinities, NaNs, subnormals, zeros, the least and the greatest.
const ODD: [u32; 16] = [
    0x7f80_0000,
    0xff80_0000,
    0x7fc0_0000,
    0xffc0_0000,
    0x7f80_0001,
    0xffff_ffff,
    0x0000_0001,
    0x8000_0001,
    0x007f_ffff,
    0x807f_ffff,
    0x0080_0000,
    0x8080_0000,
    0x0000_0000,
    0x8000_0000,
    0x7f7f_ffff,
    0xff7f_ffff,
];

pub fn request(random: &mut Random) -> Request {
    let (kind, position) = match random.below(3) {
        0 => (Kind::Span { low: end(random), high: end(random) }, position(random)),
        1 => rate(random),
        _ => (Kind::Fixed { value: value(random) }, position(random)),
    };
    let used = random.among(&[Use::AtMost, Use::AtLeast]);
    Request::Slide { kind, position, used }
}

/// The bits of z / 2^shift, where |z| is below 2^24.
pub fn bits_of(z: i64, shift: i32) -> u32 {
    let size = z.unsigned_abs() as u32;
    if size == 0 {
        return 0;
    }
    let highest = 31 - size.leading_zeros();
    let fraction = size << (23 - highest) & 0x7f_ffff;
    let exponent = (127 + highest as i32 - shift) as u32;
    u32::from(z < 0) << 31 | exponent << 23 | fraction
}

/// Mostly the bits as they are; at times their neighbour, an odd number or any bits.
fn at_times_odd(random: &mut Random, bits: u32) -> u32 {
    match random.below(16) {
        0 => random.among(&ODD),
        1 => bits.wrapping_add(random.among(&[1, u32::MAX])),
        2 if random.one_in(3) => random.bits() as u32,
        3 if random.one_in(3) => bits ^ 0x8000_0000,
        _ => bits,
    }
}

fn end(random: &mut Random) -> u32 {
    let whole = match random.below(8) {
        0 => random.among(&[-4_097, -4_096, -4_095, -1, 0, 1, 4_095, 4_096, 4_097]),
        1 => random.between(-5_000, 5_000),
        2..=3 => random.between(-30, 30),
        _ => random.between(-4_096, 4_096),
    };
    let shift = i32::from(random.one_in(24));
    at_times_odd(random, bits_of(whole, shift))
}

/// A Rate and its position: of any value, or of one around the bound's limit or a whole number.
fn rate(random: &mut Random) -> (Kind, u32) {
    let (work, k) = match random.below(4) {
        0 => work_and_k_at_limit(random),
        1 => work_and_k_at_whole(random),
        _ => return (Kind::Rate { work: work(random) }, position(random)),
    };
    (Kind::Rate { work: bits_of(work, 0) }, bits_of(k, 8))
}

/// A work and a k of the greatest value not above the bound's limit, or of the next; no k past 10 reaches it.
fn work_and_k_at_limit(random: &mut Random) -> (i64, i64) {
    let k = random.between(1, 10);
    (FARTHEST_BOUND * k / 256 + random.between(0, 1), k)
}

/// A work and a k of a value that is whole, or 1/k beside a whole number; of k works in a row one has it.
fn work_and_k_at_whole(random: &mut Random) -> (i64, i64) {
    let k = random.between(1, 256);
    let mut work = random.between(0, 3_840);
    while ![0, 1, k - 1].contains(&(256 * work % k)) {
        work += 1;
    }
    (work, k)
}

fn work(random: &mut Random) -> u32 {
    let whole = match random.below(8) {
        0 => random.among(&[-1, 0, 1, 390, 391, 4_095, 4_096, 4_097]),
        1 => random.between(-10, 5_000),
        2..=4 => random.between(0, 400),
        _ => random.between(0, 4_096),
    };
    at_times_odd(random, bits_of(whole, 0))
}

fn position(random: &mut Random) -> u32 {
    let k = match random.below(6) {
        0 => random.among(&[-1, 0, 1, 2, 128, 255, 256, 257]),
        1 => random.between(0, 10),
        _ => random.between(0, 256),
    };
    let shift = if random.one_in(24) { 9 } else { 8 };
    at_times_odd(random, bits_of(k, shift))
}

/// A Fixed value: within 2 of either of the bound's limits, around 0, or of any size.
fn value(random: &mut Random) -> u32 {
    let shift = random.below(8) as i32;
    let one = 1 << shift;
    let near = random.between(-2 * one, 2 * one);
    let z = match random.below(4) {
        0 => FARTHEST_BOUND * one + near,
        1 => -FARTHEST_BOUND * one + near,
        2 => random.between(-300, 300),
        _ => random.between(-16_000_000, 16_000_000),
    };
    at_times_odd(random, bits_of(z, shift))
}
