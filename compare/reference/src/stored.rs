//! Sessions as bytes (docs/DECISIONS.md, C interface): the parts one after another, each of a fixed length.

/// Reads the parts of a stored session, from the front.
pub struct Reader<'a> {
    rest: &'a [u8],
}

impl<'a> Reader<'a> {
    /// A reader at the front of a session's bytes.
    pub fn new(bytes: &'a [u8]) -> Reader<'a> {
        Reader { rest: bytes }
    }

    /// The next part.
    pub fn array<const LENGTH: usize>(&mut self) -> [u8; LENGTH] {
        let (part, rest) = self.rest.split_at(LENGTH);
        self.rest = rest;
        part.try_into().expect("a part of this length")
    }

    /// The next byte.
    pub fn byte(&mut self) -> u8 {
        let [byte] = self.array();
        byte
    }
}

/// Bytes at the front of a longer part, zeros behind them.
pub fn padded<const LENGTH: usize>(bytes: &[u8]) -> [u8; LENGTH] {
    let mut part = [0; LENGTH];
    part[..bytes.len()].copy_from_slice(bytes);
    part
}

/// Writes bytes at the front of a longer part and leaves what is behind them.
pub fn write_front(part: &mut [u8], bytes: &[u8]) {
    part[..bytes.len()].copy_from_slice(bytes);
}

/// The byte of a phase in a list of them.
pub fn byte_of<Phase: Copy + PartialEq>(phases: &[(Phase, u8)], phase: Phase) -> u8 {
    phases.iter().find(|(other, _)| *other == phase).expect("every phase is in the list").1
}

/// The phase of a byte in a list of them, or another where it is none.
pub fn phase_of<Phase: Copy>(phases: &[(Phase, u8)], byte: u8, other: Phase) -> Phase {
    phases.iter().find(|(_, code)| *code == byte).map_or(other, |(phase, _)| *phase)
}
