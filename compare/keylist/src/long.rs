//! Texts with very long fields or very many lines.

/// The digits of a long field.
const DIGITS: usize = 1_000_000;

/// The sample of document 01, with one of its fields to be replaced.
fn sample(matrix: &str, syndrome: &str, key: &str) -> Vec<u8> {
    format!("set\t2\t1\t1\t1\t1\nmatrix\t{matrix}\nsyndrome\t{syndrome}\nkey\t{key}\n").into_bytes()
}

/// The sample of document 01 with another set line.
fn sample_with_set(set: &str) -> Vec<u8> {
    format!("{set}\nmatrix\t01\nsyndrome\t05\nkey\t05\n").into_bytes()
}

/// Hex fields of a million digits, with and without a bad one at the end, in each of the three lines, and other long
/// texts.
pub fn texts() -> Vec<(&'static str, Vec<u8>)> {
    let good = "0a".repeat(DIGITS / 2);
    let mut texts = Vec::new();
    for (name, end) in
        [("long hex", ""), ("long hex, bad digit", "0g"), ("long hex, odd", "0"), ("long hex, upper", "0A")]
    {
        let long = format!("{good}{end}");
        texts.push((name, sample(&long, "05", "05")));
        texts.push((name, sample("01", &long, "05")));
        texts.push((name, sample("01", "05", &long)));
    }
    texts.push(("long decimal", sample_with_set(&format!("set\t{}\t1\t1\t1\t1", "1".repeat(DIGITS)))));
    texts.push(("long word", sample_with_set(&format!("set{}\t2\t1\t1\t1\t1", "t".repeat(DIGITS)))));
    texts.push(("many fields", sample_with_set(&format!("set{}", "\t1".repeat(DIGITS / 2)))));
    texts.push(("many lines", [sample("01", "05", "05"), vec![b'\n'; DIGITS]].concat()));
    texts.push(("many keys", sample("01", "05", "05").repeat(10_000)));
    texts.push(("no line feed at all", vec![b'0'; DIGITS]));
    texts
}
