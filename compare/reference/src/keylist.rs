//! The key listing: four lines in, the key's vector and polynomials or a refusal out.

use crate::key::{check_weight, KeyPolynomials, PublicKey};
use crate::numbers::{require, Number, MALFORMED_TEXT, WRONG_LENGTH};
use crate::parameters::Parameters;

/// A key as its four lines give it, with no limit or length checked yet.
struct KeyText {
    parameters: Parameters,
    matrix: Vec<u8>,
    y: Vec<u8>,
    x_a: Vec<u8>,
}

/// All that `keylist` prints for an input.
pub fn listing(input: &[u8]) -> Vec<u8> {
    match try_listing(input) {
        Ok(text) => text.into_bytes(),
        Err(number) => format!("refused\t{number}\n").into_bytes(),
    }
}

fn try_listing(input: &[u8]) -> Result<String, Number> {
    let text = parse(input).ok_or(MALFORMED_TEXT)?;
    text.parameters.check()?;
    let key = PublicKey { matrix: &text.matrix, y: &text.y };
    key.check(&text.parameters)?;
    require(text.x_a.len() == text.parameters.k, WRONG_LENGTH)?;
    let x = key.vector(&text.x_a);
    check_weight(&text.parameters, &x)?;
    Ok(print(&x, &KeyPolynomials::new(&text.parameters, &x)))
}

fn print(x: &[u8], polynomials: &KeyPolynomials) -> String {
    let lines = [
        ("vector", x),
        ("locator", &polynomials.q),
        ("S", &polynomials.s),
        ("P", &polynomials.p),
        ("F", &polynomials.f),
    ];
    lines.map(|(word, bytes)| format!("{word}\t{}\n", to_hex(bytes))).concat()
}

/// The lower case hex of some bytes, two digits a byte.
pub fn to_hex(bytes: &[u8]) -> String {
    bytes.iter().map(|byte| format!("{byte:02x}")).collect()
}

/// The key that an input holds, or none if it is not four well-formed lines.
fn parse(input: &[u8]) -> Option<KeyText> {
    let ended = input.strip_suffix(b"\n")?;
    let lines: Vec<&[u8]> = ended.split(|&byte| byte == b'\n').collect();
    let [set, matrix, syndrome, key] = lines[..] else { return None };
    let parameters = parse_set(set)?;
    let matrix = parse_hex_line(matrix, b"matrix")?;
    let y = parse_hex_line(syndrome, b"syndrome")?;
    let x_a = parse_hex_line(key, b"key")?;
    Some(KeyText { parameters, matrix, y, x_a })
}

fn fields(line: &[u8]) -> Vec<&[u8]> {
    line.split(|&byte| byte == b'\t').collect()
}

fn parse_set(line: &[u8]) -> Option<Parameters> {
    let [b"set", m, k, w, axes, t] = fields(line)[..] else { return None };
    let number = parse_decimal;
    Some(Parameters::new(number(m)?, number(k)?, number(w)?, number(axes)?, number(t)?))
}

/// A decimal of one to three digits without leading zeros.
fn parse_decimal(field: &[u8]) -> Option<usize> {
    let digits = field.iter().all(u8::is_ascii_digit);
    let leading_zero = field.len() > 1 && field[0] == b'0';
    if !digits || leading_zero || !(1..=3).contains(&field.len()) {
        return None;
    }
    Some(field.iter().fold(0, |value, digit| 10 * value + usize::from(digit - b'0')))
}

fn parse_hex_line(line: &[u8], word: &[u8]) -> Option<Vec<u8>> {
    let [found, hex] = fields(line)[..] else { return None };
    if found == word {
        parse_hex(hex)
    } else {
        None
    }
}

/// The bytes of lower case hex, two digits a byte; an empty field is no bytes.
fn parse_hex(field: &[u8]) -> Option<Vec<u8>> {
    if field.len() % 2 == 1 {
        return None;
    }
    field.chunks_exact(2).map(|pair| Some(hex_digit(pair[0])? << 4 | hex_digit(pair[1])?)).collect()
}

fn hex_digit(digit: u8) -> Option<u8> {
    match digit {
        b'0'..=b'9' => Some(digit - b'0'),
        b'a'..=b'f' => Some(digit - b'a' + 10),
        _ => None,
    }
}
