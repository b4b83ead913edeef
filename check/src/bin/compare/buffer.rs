//! A buffer to lend: filled with a pattern, with a strip on both sides that no call may touch.

const STRIP: usize = 64;

#[derive(Clone, Default)]
pub struct Buffer {
    octets: Vec<u8>,
}

impl Buffer {
    /// Takes a new length and a new pattern.
    pub fn fill(&mut self, length: usize, turn: u64) {
        // Octets of the pattern differ from their neighbours and from turn to turn.
        let start = turn as u8;
        self.octets.clear();
        self.octets.extend((0..length + 2 * STRIP).map(|i| (i as u8).wrapping_mul(37).wrapping_add(start)));
    }

    /// Takes these octets, and a new pattern around them.
    pub fn hold(&mut self, octets: &[u8], turn: u64) {
        self.fill(octets.len(), turn);
        self.lent().copy_from_slice(octets);
    }

    /// The part that is lent.
    pub fn lent(&mut self) -> &mut [u8] {
        let end = self.octets.len() - STRIP;
        &mut self.octets[STRIP..end]
    }

    /// The part that was lent, as it stands now.
    pub fn seen(&self) -> &[u8] {
        &self.octets[STRIP..self.octets.len() - STRIP]
    }

    pub fn differs(&self, other: &Buffer) -> Option<String> {
        if self.octets == other.octets {
            return None;
        }
        let at = (0..self.octets.len()).find(|i| self.octets[*i] != other.octets[*i])?;
        let place = at as i64 - STRIP as i64;
        Some(format!("octet {place}: {:02X} against {:02X}", self.octets[at], other.octets[at]))
    }
}

pub fn hex(octets: &[u8]) -> String {
    octets.iter().map(|octet| format!("{octet:02X}")).collect()
}
