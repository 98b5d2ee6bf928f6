//! What `unlock` prints for a key: a line for the parameters, one for the run count, one for each message, the verdict, with
//! an accepted one the chance of a prover without the key, and what is proved.

use crate::default_key::{expand, leaves, message_2};
use reference::keylist::to_hex;
use reference::lent::Lent;
use reference::numbers::{Number, CARRIED_OUT};
use reference::parameters::Parameters;
use reference::prover::Prover;
use reference::sampling::keys::Key;
use reference::shake256::shake256;
use reference::verifier::Verifier;

const PROVED: &str = "proved\tthe messages are document 01's and 02's byte for byte; \
                      accepted exactly when the checks of every run hold (docs/CLAIMS.md)\n";

/// The lines printed so far, and the work area that the calls are lent.
struct Program<'a> {
    key: &'a Key,
    runs: usize,
    work: Vec<u8>,
    text: String,
}

/// All that is printed for a key that is not malformed and a run count within its limits.
pub fn text(key: &Key, runs: usize) -> String {
    let mut program = Program { key, runs, work: vec![0; key.parameters.work_bytes()], text: String::new() };
    let mut prover = Prover::default();
    let mut message_1 = vec![0; Parameters::message_1_bytes(runs)];
    let (salt, root) = (expand("salt", 32), expand("root", 16));
    let begun = prover.begin(key.parameters, runs, &key.x_a, &salt, &root, program.lent(), &mut message_1);
    if let Err(number) = done(begun) {
        return format!("refused\t{number}\n");
    }
    program.set();
    program.message("1 commitment", &message_1);
    let verdict = match program.exchange(&mut prover, &message_1) {
        Ok(()) => format!("verdict\taccepted\n{}", chance(runs * key.parameters.axes)),
        Err(number) => format!("verdict\trefused\t{number}\n"),
    };
    program.text + &verdict + PROVED
}

fn chance(exponent: usize) -> String {
    format!("chance\t2^-{exponent}\tabout, that a prover without the key is accepted\n")
}

impl Program<'_> {
    fn lent(&mut self) -> Lent<'_> {
        Lent { matrix: &self.key.matrix, y: &self.key.y, work: &mut self.work }
    }

    fn set(&mut self) {
        let Parameters { m, k, w, axes, t } = self.key.parameters;
        self.text += &format!("set\t{m}\t{k}\t{w}\t{axes}\t{t}\nruns\t{}\n", self.runs);
    }

    fn message(&mut self, name: &str, message: &[u8]) {
        self.text += &format!("{name}\t{}\t{}\n", message.len(), to_hex(&shake256(message, 32)));
    }

    /// The calls from the verifier's begin to its verdict: the number of the first that refuses.
    fn exchange(&mut self, prover: &mut Prover, message_1: &[u8]) -> Result<(), Number> {
        let (parameters, runs) = (self.key.parameters, self.runs);
        let mut verifier = Verifier::default();
        done(verifier.begin(parameters, runs, message_1))?;
        let message_2 = message_2(&parameters, runs);
        done(verifier.points(&message_2))?;
        self.message("2 points", &message_2);
        let mut message_3 = vec![0; Parameters::message_3_bytes(runs)];
        done(prover.points(&message_2, self.lent(), &mut message_3))?;
        self.message("3 response", &message_3);
        done(verifier.response(&message_3))?;
        let hidden = leaves(&parameters, runs);
        done(verifier.leaf(&hidden))?;
        self.message("4 leaf", &hidden);
        let mut message_5 = vec![0; parameters.message_5_bytes(&hidden)];
        done(prover.leaf(&hidden, self.lent(), &mut message_5))?;
        self.message("5 opening", &message_5);
        done(verifier.opening(&message_5, self.lent()))
    }
}

fn done(number: Number) -> Result<(), Number> {
    if number == CARRIED_OUT {
        Ok(())
    } else {
        Err(number)
    }
}
