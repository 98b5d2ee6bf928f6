//! The numbers of document 01: what a call answers, and the only place where they are written.

/// What a call answers: 0 for a call carried out or an opening accepted, else document 01's number.
pub type Number = u8;

/// The call was carried out; from an opening, it was accepted.
pub const CARRIED_OUT: Number = 0;
/// A parameter or the run count is outside its limits.
pub const PARAMETER_OUTSIDE_LIMITS: Number = 1;
/// A lent slice has a wrong length.
pub const WRONG_LENGTH: Number = 2;
/// x has more than w nonzero entries.
pub const OVERWEIGHT: Number = 3;
/// The leaf number of some run is not below n.
pub const LEAF_NOT_BELOW_N: Number = 4;
/// The recomputed h of the lowest refused run differs from message 1's.
pub const COMMITMENT_DIFFERS: Number = 5;
/// The sums of α, β or v differ between axes. Unused since request 05: they never do, and no call answers it.
pub const SUMS_DIFFER: Number = 6;
/// The recomputed h' of the lowest refused run differs from message 3's.
pub const RESPONSE_DIFFERS: Number = 7;
/// Extractor: salt, h, points, multipliers or h' differ.
pub const EXCHANGES_DIFFER: Number = 8;
/// Extractor: both openings hide the same leaf in every run.
pub const SAME_HIDDEN_LEAVES: Number = 9;
/// Program: wrong word, field count, digits or hex, or a line missing or left over.
pub const MALFORMED_TEXT: Number = 10;
/// The call is not due.
pub const NOT_DUE: Number = 11;
/// The exchange is closed, only begin is due.
pub const CLOSED: Number = 12;
/// Salt and root both equal those of the exchange held.
pub const SALT_AND_ROOT_HELD: Number = 13;
/// Two points of one run are equal (document 02, request 02). Checked straight after 2.
pub const POINT_REPEATED: Number = 14;

/// Refuses with the number unless the condition holds.
pub fn require(condition: bool, number: Number) -> Result<(), Number> {
    if condition {
        Ok(())
    } else {
        Err(number)
    }
}

/// The number that a call answers for the outcome of its steps.
pub fn number_of(outcome: Result<(), Number>) -> Number {
    outcome.err().unwrap_or(CARRIED_OUT)
}
