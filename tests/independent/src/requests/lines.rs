//! Lines with something changed, most of them malformed; the grammar decides what each is.

use crate::day::ENTRIES;
use crate::dialogue::LONGEST_LINE;
use crate::random::Random;
use crate::reasons::ROW;

/// A line taken apart at its spaces.
type Words = Vec<Vec<u8>>;

/// A line with one thing changed, or another line altogether.
pub fn mangled(random: &mut Random, line: Vec<u8>) -> Vec<u8> {
    let mut words: Words = line.split(|byte| *byte == b' ').map(<[u8]>::to_vec).collect();
    match random.below(12) {
        0 => change_byte(random, line),
        1 => words_with(random, &mut words, leave_out),
        2 => words_with(random, &mut words, add),
        3..=5 => words_with(random, &mut words, rewrite),
        6 => words_with(random, &mut words, put_number),
        7 => words_with(random, &mut words, change_count),
        8 => words_with(random, &mut words, change_name),
        9 => spaces_changed(random, line),
        10 => rubbish(random),
        _ => random.among(&FIXED).to_vec(),
    }
}

/// Lines that are malformed, or nearly so, by themselves.
const FIXED: [&[u8]; 37] = [
    b"",
    b" ",
    b"\0",
    b"\r",
    b"plan",
    b"plan ",
    b"lamps",
    b"quit",
    b"lamps 1 0",
    b"lamps 1 0 0",
    b"lamps 1 0 0 ",
    b" lamps 1 0 0",
    b"lamps  1 0 0",
    b"lamps\t1 0 0",
    b"lamps 1 0 0\r",
    b"Lamps 1 0 0",
    b"lamps 0001 000 00",
    b"lamps 0x1 0 0",
    b"lamps 2 3 1 -0 -00 1 1",
    b"lamps -0 0 0",
    b"times 1 0 0 1 -0",
    b"slide 2 0 0 0 2",
    b"script",
    b"script 0",
    b"script 0 ",
    b"script 1",
    b"script 1 256",
    b"script 01 0059",
    b"write",
    b"write 0 1 0",
    b"write 0 1 0 0",
    b"write -0 1 0 0",
    b"write 0055 01 00 0",
    b"write 65537 1 0 0",
    b"day",
    b"day 1 0 0 0 0 0",
    b"day 1 0 0 0 0 0 0",
];

/// Numbers that one type or another does not hold, and words that are no numbers.
const NUMBERS: [&str; 30] = [
    "0",
    "1",
    "64",
    "65",
    "255",
    "256",
    "257",
    "65536",
    "65537",
    "1000000",
    "2147483647",
    "2147483648",
    "4294967295",
    "4294967296",
    "18446744073709551615",
    "18446744073709551616",
    "340282366920938463463374607431768211456",
    "99999999999999999999999999999999999999999",
    "-1",
    "-0",
    "-00",
    "-2147483648",
    "-2147483649",
    "-4294967296",
    "-99999999999999999999999999999999999999999",
    "-",
    "--1",
    "+1",
    "1.0",
    "1e3",
];

fn words_with(random: &mut Random, words: &mut Words, change: fn(&mut Random, &mut Words)) -> Vec<u8> {
    change(random, words);
    words.join(&b' ')
}

/// A place among the words after the first, where there is one.
fn place(random: &mut Random, words: &[Vec<u8>]) -> usize {
    match words.len() {
        0 | 1 => 0,
        length if random.one_in(3) => length - 1,
        length if random.one_in(2) => 1 + random.below((length - 1).min(8)),
        length => 1 + random.below(length - 1),
    }
}

fn leave_out(random: &mut Random, words: &mut Words) {
    let place = place(random, words);
    words.remove(place);
}

fn add(random: &mut Random, words: &mut Words) {
    let place = place(random, words) + usize::from(random.one_in(2));
    words.insert(place, random.among(&["0", "1", "7", "-1", "x", "|"]).into());
}

/// The same number written another way: a sign, leading zeros, a letter or another byte in it.
fn rewrite(random: &mut Random, words: &mut Words) {
    let place = place(random, words);
    let word = &mut words[place];
    let front = random.among(&["0", "00", "000000000000000000000000000000", "+", "-", "-0", "x", "'", "\0"]);
    match random.below(3) {
        0..=1 => drop(word.splice(0..0, front.bytes())),
        _ => {
            let inside = random.below(word.len() + 1);
            word.insert(inside, random.among(&[b'x', b'-', b'.', b',', b'_', b'\t', b'\r', 0, 0x80, 0xff, b'/', b':']));
        }
    }
}

fn put_number(random: &mut Random, words: &mut Words) {
    let place = place(random, words);
    words[place] = random.among(&NUMBERS).into();
}

/// A line whose counts lie at their limits or above, with as many zeros following.
fn change_count(random: &mut Random, words: &mut Words) {
    let line = match &words[0][..] {
        b"plan" => plan_at_limits(random),
        b"times" => {
            let counts = [3, random.among(&[1, 64, 65]), random.among(&[64, 65])];
            zeros("times 1", &counts)
        }
        b"reasons" => {
            let long = if random.one_in(10) { random.among(&[65_536, 65_537]) } else { ROW };
            zeros("reasons 1", &[random.among(&[256, 257, 3]), random.among(&[1, 64, 65]), long])
        }
        b"script" => {
            let long = if random.one_in(10) { random.among(&[65_536, 65_537]) } else { 16 };
            zeros("script", &[long])
        }
        b"write" => {
            let room = random.among(&["0", "16", "65537", "4294967295"]);
            zeros(&format!("write {room} 1"), &[random.among(&[255, 256, 257]), random.among(&[64, 65])])
        }
        b"lamps" => zeros("lamps 1", &[random.among(&[255, 256, 257]), random.among(&[64, 65])]),
        b"day" => day_at_limits(random),
        _ => format!("slide {} 0 {} 0 {}", random.below(4), random.below(2), random.below(3)),
    };
    *words = vec![line.into_bytes()];
}

fn plan_at_limits(random: &mut Random) -> String {
    let lent = random.among(&["64 64 0", "65 64 0", "64 65 0", "64 64 65537", "0 0 4294967295"]);
    zeros(&format!("plan 1 9 {lent}"), &[random.among(&[256, 257, 0]), random.among(&[64, 65, 0])])
}

/// As many timetable elements, entries and ways to add as there may be, or one more; or an entry fewer.
fn day_at_limits(random: &mut Random) -> String {
    let added = random.among(&["0 0 0 0", "1 0 0 0", "2 0 0 0", "1 -0 -0 -0", "-0 0 0 0"]);
    let timetable = random.among(&["64", "064", "65", "-0"]);
    let entries = random.among(&[ENTRIES - 1, ENTRIES, ENTRIES, ENTRIES, ENTRIES + 1]);
    format!("day 1 {added} {timetable}{}", " 0".repeat(entries))
}

/// The front, then for each count the count and as many zeros.
fn zeros(front: &str, counts: &[usize]) -> String {
    let list = |count: &usize| format!(" {count}{}", " 0".repeat(*count));
    format!("{front}{}", counts.iter().map(list).collect::<String>())
}

fn change_name(random: &mut Random, words: &mut Words) {
    let names = [
        "plan", "reasons", "times", "lamps", "slide", "script", "write", "day", "Plan", "pla", "plans", "", "lamp",
        "none", "scripts", "writes", "text", "days", "Day",
    ];
    words[0] = random.among(&names).into();
}

fn change_byte(random: &mut Random, mut line: Vec<u8>) -> Vec<u8> {
    if !line.is_empty() {
        let place = random.below(line.len());
        line[place] = random.among(b" 0123456789-+xp\t\r\0\xc3|");
    }
    line
}

/// A space more somewhere: doubled, at the front, at the end; or one less.
fn spaces_changed(random: &mut Random, mut line: Vec<u8>) -> Vec<u8> {
    let spaces: Vec<usize> = (0..line.len()).filter(|place| line[*place] == b' ').collect();
    match random.below(4) {
        0 => line.push(b' '),
        1 => line.insert(0, b' '),
        2 if !spaces.is_empty() => line.insert(random.among(&spaces), b' '),
        _ if !spaces.is_empty() => drop(line.remove(random.among(&spaces))),
        _ => {}
    }
    line
}

/// Any bytes but the line feed; seldom a line at the longest length or past it.
fn rubbish(random: &mut Random) -> Vec<u8> {
    if random.one_in(40) {
        return long_line(LONGEST_LINE + random.below(2));
    }
    let length = random.below(60);
    let byte = |_| random.below(256) as u8;
    (0..length).map(byte).filter(|byte| *byte != b'\n').collect()
}

/// A request that leading zeros make so many bytes long; malformed only past the longest length.
pub fn long_line(length: usize) -> Vec<u8> {
    let (front, end) = ("lamps ", "1 0 0");
    let zeros = "0".repeat(length - front.len() - end.len());
    [front, &zeros, end].concat().into_bytes()
}
