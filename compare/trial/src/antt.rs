//! A module of facts in the prover's language: values, and equations that hold by computing.

use reference::parameters::Parameters;
use reference::sampling::exchanges::Exchange;
use reference::sampling::keys::Key;
use reference::strings::SALT_BYTES;
use std::collections::HashSet;

/// What every module may use: a module and the names taken from it.
const COMMON: [(&str, &[&str]); 5] = [
    ("Rattle.std.specs.Prelude", &["◌≡◌", "refl", "List", "[]", "◌∷◌", "map", "ℕ", "replicate"]),
    ("Rattle.answers.specs.Number", &["answer_number"]),
    ("Rattle.parameters.specs.declared.Parameters", &["Parameters"]),
    ("Rattle.exchange.specs.Values", &["Key"]),
    ("Rattle.test_standin.specs.StandIn", &["hex", "stand_in", "weak", "weak_leaves"]),
];

/// From so many equal bytes on, a list is written as a repetition.
const REPEATED: usize = 5;

/// A list of bytes.
pub fn list(bytes: &[u8]) -> String {
    match bytes {
        [] => "[]".into(),
        [first, ..] if bytes.len() >= REPEATED && bytes.iter().all(|byte| byte == first) => {
            format!("replicate {} {first:#04x}", bytes.len())
        }
        _ => format!("hex {} 0x{}", bytes.len(), reference::keylist::to_hex(bytes)),
    }
}

/// A record, field by field, on lines of its own.
pub fn record(fields: &[(&str, String)]) -> String {
    let lines: String = fields.iter().map(|(name, term)| format!("  {name} = {term};\n")).collect();
    format!("record {{\n{lines}}}")
}

/// Parameters.
pub fn parameters(set: &Parameters) -> String {
    let Parameters { m, k, w, axes, t } = set;
    format!("record {{ m = {m}; k = {k}; w = {w}; axes = {axes}; t = {t} }}")
}

/// Matrix and y of a key.
pub fn public_key(matrix: &[u8], y: &[u8]) -> String {
    format!("record {{ matrix = {}; y = {} }}", list(matrix), list(y))
}

/// The messages of an exchange.
pub fn transcript(exchange: &Exchange) -> String {
    record(&[
        ("message1", list(&exchange.message_1)),
        ("message2", list(&exchange.message_2)),
        ("message3", list(&exchange.message_3)),
        ("leaves", list(&exchange.leaves)),
        ("message5", list(&exchange.message_5)),
    ])
}

/// A module of values and facts.
pub struct Module {
    /// Its name.
    pub name: &'static str,
    opening: String,
    uses: Vec<(&'static str, &'static [&'static str])>,
    body: String,
    named: Vec<(String, String)>,
    comment: String,
    facts: usize,
}

impl Module {
    /// A module with the comment that opens it and what it may use besides what every module may.
    pub fn new(name: &'static str, comment: &[&str], uses: &[(&'static str, &'static [&'static str])]) -> Module {
        let line = |line: &&str| if line.is_empty() { "--\n".to_string() } else { format!("-- {line}\n") };
        Module {
            name,
            opening: comment.iter().map(line).collect(),
            uses: [&COMMON[..], uses].concat(),
            body: String::new(),
            named: Vec::new(),
            comment: String::new(),
            facts: 0,
        }
    }

    /// A comment to the value that follows.
    pub fn comment(&mut self, comment: &str) {
        self.comment = format!("-- {comment}\n");
    }

    /// Names a value.
    pub fn value(&mut self, name: &str, kind: &str, term: &str) {
        let separator = if term.starts_with('\n') { "" } else { " " };
        let comment = std::mem::take(&mut self.comment);
        self.body += &format!("\n{comment}abbrev {name} : {kind}\n{name} ={separator}{term}\n");
        self.named.push((term.into(), name.into()));
    }

    /// Names a function of one argument.
    pub fn function(&mut self, name: &str, kind: &str, argument: &str, term: &str) {
        self.body += &format!("\nabbrev {name} : {kind}\n{name} {argument} = {term}\n");
    }

    /// The name of a term, if it has one.
    pub fn name_of(&self, term: &str) -> Option<&str> {
        self.named.iter().find(|(named, _)| named == term).map(|(_, name)| name.as_str())
    }

    /// A term as an argument: its name, if it has one.
    pub fn argument(&self, term: &str) -> String {
        match self.name_of(term) {
            Some(name) => name.into(),
            None if term.contains(' ') => format!("({term})"),
            None => term.into(),
        }
    }

    /// A list of bytes as an argument.
    pub fn list(&self, bytes: &[u8]) -> String {
        self.argument(&list(bytes))
    }

    /// Parameters, matrix and y by the names p and key.
    pub fn key(&mut self, key: &Key) {
        self.value("p", "Parameters", &parameters(&key.parameters));
        self.value("key", "Key", &public_key(&key.matrix, &key.y));
    }

    /// A list of bytes by a name.
    pub fn bytes(&mut self, name: &str, bytes: &[u8]) {
        self.value(name, "List ℕ", &list(bytes));
    }

    /// Names what the messages of an exchange of one run hold of it.
    pub fn run(&mut self, name: &str, exchange: &Exchange) {
        let (salt, h) = exchange.message_1.split_at(SALT_BYTES);
        let term = record(&[
            ("prefix", list(&[salt, &[0]].concat())),
            ("h", list(h)),
            ("message2", list(&exchange.message_2)),
            ("message3", list(&exchange.message_3)),
            ("leaf", exchange.leaves[0].to_string()),
            ("message5", list(&exchange.message_5)),
        ]);
        self.value(name, "Exchange", &term);
    }

    /// States what a term computes to.
    pub fn fact(&mut self, name: &str, computed: &str, expected: &str) {
        self.body += &format!("\n{name} :\n    {computed}\n    ≡ {expected}\nunfolding definitions\n{name} = refl\n");
        self.facts += 1;
    }

    /// States that all equations of a record compute.
    pub fn holds(&mut self, name: &str, statement: &str, equations: &[&str]) {
        let fields: String = equations.iter().map(|equation| format!("  {equation} = refl;\n")).collect();
        self.body += &format!("\n{name} : {statement}\nunfolding definitions\n{name} = record {{\n{fields}}}\n");
        self.facts += equations.len();
    }

    /// The module's text, with those of the names that it uses.
    pub fn text(&self) -> String {
        let separators = |c: char| c.is_whitespace() || "(){};.".contains(c);
        let words: HashSet<&str> = self.body.split(separators).collect();
        let mut uses = String::new();
        for (module, names) in &self.uses {
            let used: Vec<&str> = names.iter().copied().filter(|name| words.contains(name.trim_matches('◌'))).collect();
            if !used.is_empty() {
                uses += &format!("use {module}.{{{}}}\n", used.join(", "));
            }
        }
        format!("{}{uses}{}", self.opening, self.body)
    }

    /// How many facts it states.
    pub fn facts(&self) -> usize {
        self.facts
    }
}
