//! Ways to spoil a script.

use crate::random::Random;
use std::ops::Range;

/// Bytes near those of the grammar, and such as some readers skip.
const ODD_BYTES: &[u8] = b"()  \n\n\t\r\0\x0b\x0c\x7f\x80\xa0\xff019/:;.-+aOX";

const WRONG_NUMBERS: [&str; 20] = [
    "",
    "00",
    "007",
    "-1",
    "+1",
    "1.0",
    "1e1",
    "0x1",
    "256",
    "260",
    "300",
    "999",
    "1000",
    "65535",
    "65536",
    "65792",
    "4294967296",
    "4294967297",
    "18446744073709551616",
    "340282366920938463463374607431768211457",
];

const WORDS: [&str; 16] = [
    "", "point", "line", "poke", "send", "clear", "or", "xor", "unknown", "and", "not", "copy", "box", "o",
    "orr", "unknow",
];

type Damage = fn(&mut Random, &mut Vec<u8>);

const DAMAGES: [Damage; 19] = [
    |random, script| replace_byte(random, script, |_| true, |random, _| vec![odd_byte(random)]),
    |random, script| replace_byte(random, script, |_| true, |_, byte| vec![byte ^ 1]),
    |random, script| replace_byte(random, script, |_| true, |_, _| vec![]),
    |random, script| replace_byte(random, script, |_| true, |_, byte| vec![byte; 2]),
    |random, script| replace_byte(random, script, |_| true, |random, byte| vec![odd_byte(random), byte]),
    // Lines joined, split, apart by an empty one or ending oddly.
    |random, script| replace_byte(random, script, is_newline, |_, _| vec![]),
    |random, script| replace_byte(random, script, is_newline, |_, _| b" ".to_vec()),
    |random, script| replace_byte(random, script, is_newline, |_, _| b"\n\n".to_vec()),
    |random, script| replace_byte(random, script, is_newline, |random, _| vec![random.pick(b" \r\t)\0"), 10]),
    |random, script| replace_byte(random, script, is_space, |_, _| b"\n".to_vec()),
    // Other spaces.
    |random, script| replace_byte(random, script, is_space, |_, _| b"  ".to_vec()),
    |random, script| replace_byte(random, script, is_space, |_, _| b"\t".to_vec()),
    // Other words and numbers.
    |random, script| replace_byte(random, script, is_letter, |_, byte| vec![byte ^ 32]),
    |random, script| replace_run(random, script, is_letter, |random, _| random.pick(&WORDS).into()),
    |random, script| replace_run(random, script, is_digit, |random, _| random.pick(&WRONG_NUMBERS).into()),
    |random, script| replace_run(random, script, is_digit, |_, number| [b"0", number].concat()),
    |random, script| replace_run(random, script, is_digit, |_, number| [number, b"0"].concat()),
    // The ends of the script.
    |random, script| script.truncate(random.below(script.len() + 1)),
    |_, script| drop_last_newline(script),
];

/// Spoil the script in one to three ways.
pub fn damage(random: &mut Random, script: &mut Vec<u8>) {
    for _ in 0..1 + random.below(3) {
        random.pick(&DAMAGES)(random, script);
    }
}

pub fn drop_last_newline(script: &mut Vec<u8>) {
    if script.last() == Some(&b'\n') {
        script.pop();
    }
}

fn odd_byte(random: &mut Random) -> u8 {
    if random.one_in(3) { random.byte() } else { random.pick(ODD_BYTES) }
}

fn is_newline(byte: u8) -> bool {
    byte == b'\n'
}

fn is_space(byte: u8) -> bool {
    byte == b' '
}

fn is_letter(byte: u8) -> bool {
    byte.is_ascii_alphabetic()
}

fn is_digit(byte: u8) -> bool {
    byte.is_ascii_digit()
}

/// Put other bytes in the place of one of this kind, if there is one.
fn replace_byte(
    random: &mut Random,
    script: &mut Vec<u8>,
    kind: fn(u8) -> bool,
    other: fn(&mut Random, u8) -> Vec<u8>,
) {
    if let Some(place) = pick_place(random, script, kind) {
        let bytes = other(random, script[place]);
        script.splice(place..place + 1, bytes);
    }
}

/// The same with a whole word or number.
fn replace_run(
    random: &mut Random,
    script: &mut Vec<u8>,
    kind: fn(u8) -> bool,
    other: fn(&mut Random, &[u8]) -> Vec<u8>,
) {
    if let Some(place) = pick_place(random, script, kind) {
        let run = run_around(script, place, kind);
        let bytes = other(random, &script[run.clone()]);
        script.splice(run, bytes);
    }
}

fn pick_place(random: &mut Random, script: &[u8], kind: fn(u8) -> bool) -> Option<usize> {
    let places: Vec<usize> = (0..script.len()).filter(|place| kind(script[*place])).collect();
    (!places.is_empty()).then(|| random.pick(&places))
}

/// The longest run of bytes of this kind that holds the place.
fn run_around(script: &[u8], place: usize, kind: fn(u8) -> bool) -> Range<usize> {
    let before = script[..place].iter().rev().take_while(|byte| kind(**byte)).count();
    let from_there = script[place..].iter().take_while(|byte| kind(**byte)).count();
    place - before..place + from_there
}
