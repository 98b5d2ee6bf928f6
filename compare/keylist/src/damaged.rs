//! Texts with a fault that number 10 names, or that are changed anywhere.

use crate::inputs::small_key;
use reference::sampling::Random;

/// A text as its lines, each as its fields; no line has its line feed.
type Lines = Vec<Vec<Vec<u8>>>;

/// A named fault.
type Fault = (&'static str, fn(&mut Random, Vec<u8>) -> Vec<u8>);

const FAULTS: [Fault; 18] = [
    ("last line feed missing", |_, text| text[..text.len() - 1].to_vec()),
    ("line left over", line_left_over),
    ("line missing", line_missing),
    ("lines exchanged", lines_exchanged),
    ("blank line", blank_line),
    ("carriage return", carriage_return),
    ("odd digits", |random, text| change_hex(random, text, |_, hex| hex.truncate(hex.len() - 1))),
    ("upper case", |random, text| change_hex(random, text, |random, hex| upper_case(random, hex))),
    ("bad hex digit", |random, text| change_hex(random, text, |random, hex| bad_digit(random, hex))),
    ("bad word", bad_word),
    ("leading zero", |random, text| change_decimal(random, text, |_, digits| digits.insert(0, b'0'))),
    ("decimal of four digits", |random, text| change_decimal(random, text, four_digits)),
    ("empty decimal", |random, text| change_decimal(random, text, |_, digits| digits.clear())),
    ("bad decimal", |random, text| change_decimal(random, text, bad_decimal)),
    ("empty hex field", |random, text| change_hex(random, text, |_, hex| hex.clear())),
    ("field left over", field_left_over),
    ("field missing", field_missing),
    ("change anywhere", change_anywhere),
];

/// How many texts each fault gives.
const TEXTS_A_FAULT: usize = 20;

/// Texts with every fault, and short ones that are no keys at all.
pub fn texts(random: &mut Random) -> Vec<(&'static str, Vec<u8>)> {
    let mut texts = Vec::new();
    for (name, fault) in FAULTS {
        for _ in 0..TEXTS_A_FAULT {
            let text = small_key(random).to_text().into_bytes();
            texts.push((name, fault(random, text)));
        }
    }
    for _ in 0..200 {
        let text = small_key(random).to_text().into_bytes();
        let changes = random.between(1, 3);
        texts.push(("changes anywhere", (0..changes).fold(text, |text, _| change_anywhere(random, text))));
    }
    for text in ["", "\n", "\n\n\n\n", "\t", "set", "set\n", "key\t\n", "set\t2\t1\t1\t1\t1\n", "refused\t10\n"] {
        texts.push(("no key", text.as_bytes().to_vec()));
    }
    texts
}

fn split(text: &[u8]) -> Lines {
    let body = text.strip_suffix(b"\n").unwrap_or(text);
    let fields = |line: &[u8]| line.split(|&byte| byte == b'\t').map(<[u8]>::to_vec).collect();
    body.split(|&byte| byte == b'\n').map(fields).collect()
}

fn join(lines: &Lines) -> Vec<u8> {
    lines.iter().flat_map(|fields| [fields.join(&b'\t'), b"\n".to_vec()].concat()).collect()
}

fn line_left_over(random: &mut Random, text: Vec<u8>) -> Vec<u8> {
    let more: &[u8] = random.choose(&[&b"\n"[..], b"x", b"key\t00\n", b"\t\n", b" ", b"\0", b"set\t2\t1\t1\t1\t1\n"]);
    [&text, more].concat()
}

fn line_missing(random: &mut Random, text: Vec<u8>) -> Vec<u8> {
    let mut lines = split(&text);
    lines.remove(random.below(4));
    join(&lines)
}

fn lines_exchanged(random: &mut Random, text: Vec<u8>) -> Vec<u8> {
    let mut lines = split(&text);
    let first = random.below(4);
    lines.swap(first, (first + random.between(1, 3)) % 4);
    join(&lines)
}

fn blank_line(random: &mut Random, text: Vec<u8>) -> Vec<u8> {
    let mut lines = split(&text);
    lines.insert(random.below(5), vec![vec![]]);
    join(&lines)
}

fn carriage_return(random: &mut Random, text: Vec<u8>) -> Vec<u8> {
    let mut lines = split(&text);
    let place = random.below(5);
    for (_, fields) in lines.iter_mut().enumerate().filter(|(line, _)| *line == place || place == 4) {
        fields.last_mut().expect("a line has a field").push(b'\r');
    }
    join(&lines)
}

/// Changes the hex field of one of the last three lines.
fn change_hex(random: &mut Random, text: Vec<u8>, change: fn(&mut Random, &mut Vec<u8>)) -> Vec<u8> {
    let mut lines = split(&text);
    let line = random.between(1, 3);
    change(random, &mut lines[line][1]);
    join(&lines)
}

fn upper_case(random: &mut Random, hex: &mut [u8]) {
    let place = random.below(hex.len());
    hex[place] = random.choose(b"ABCDEF");
}

fn bad_digit(random: &mut Random, hex: &mut [u8]) {
    let place = if random.once_in(3) { hex.len() - 1 } else { random.below(hex.len()) };
    hex[place] = random.choose(b"g`G@:/ \0\x7f\x80\xff-x");
}

fn bad_word(random: &mut Random, text: Vec<u8>) -> Vec<u8> {
    let mut lines = split(&text);
    let line = random.below(4);
    let word = &mut lines[line][0];
    match random.below(7) {
        0 => word.make_ascii_uppercase(),
        1 => word.truncate(word.len() - 1),
        2 => word.push(b's'),
        3 => word.clear(),
        4 => word.insert(0, b' '),
        5 => *word = random.choose(&[b"set".to_vec(), b"vector".to_vec(), b"locator".to_vec(), b"runs".to_vec()]),
        _ => word[0] ^= 1,
    }
    join(&lines)
}

/// Changes one of the five decimals.
fn change_decimal(random: &mut Random, text: Vec<u8>, change: fn(&mut Random, &mut Vec<u8>)) -> Vec<u8> {
    let mut lines = split(&text);
    let field = random.between(1, 5);
    change(random, &mut lines[0][field]);
    join(&lines)
}

fn four_digits(random: &mut Random, digits: &mut Vec<u8>) {
    let choices: [&[u8]; 6] = [b"1000", b"9999", b"0002", b"2559", b"65538", b"18446744073709551618"];
    *digits = random.choose(&choices).to_vec();
}

fn bad_decimal(random: &mut Random, digits: &mut Vec<u8>) {
    let choices: [&[u8]; 10] = [b"+2", b"-1", b" 2", b"2 ", b"a", b"0x2", b"2.", b":", b"/", b"\xd9\xa2"];
    *digits = random.choose(&choices).to_vec();
}

fn field_left_over(random: &mut Random, text: Vec<u8>) -> Vec<u8> {
    let mut lines = split(&text);
    let line = random.below(4);
    let place = random.between(0, lines[line].len());
    let field = random.choose(&[vec![], b"1".to_vec(), b"00".to_vec()]);
    lines[line].insert(place, field);
    join(&lines)
}

fn field_missing(random: &mut Random, text: Vec<u8>) -> Vec<u8> {
    let mut lines = split(&text);
    let line = random.below(4);
    let place = random.below(lines[line].len());
    lines[line].remove(place);
    join(&lines)
}

/// Changes, removes or adds one byte; the text may stay well-formed.
fn change_anywhere(random: &mut Random, mut text: Vec<u8>) -> Vec<u8> {
    let place = random.below(text.len());
    let byte = if random.once_in(2) { random.choose(b"0123456789abcdef\t\n\r ") } else { random.byte() };
    match random.below(3) {
        0 => text[place] = byte,
        1 => {
            text.remove(place);
        }
        _ => text.insert(place, byte),
    }
    text
}
