//! The table of refusals (01, Refusal numbers).

#[derive(Clone, Copy, Debug, PartialEq, Eq)]
#[repr(u32)]
pub enum Refusal {
    Length = 1,
    Out,
    Second,
    Clock,
    Dummy,
    Stop,
    Status,
    Type,
    PageNumber,
    Done,
    Repeat,
    Conflict,
    Full,
    Timeout,
    Id,
    Toh,
    Mask,
    Short,
    Count,
    System,
    Twice,
    NavMsg,
    Validity,
    Form,
    Long,
}

/// Names by number; there is no refusal 0.
pub const NAMES: [&str; 26] = [
    "-",
    "LENGTH",
    "OUT",
    "SECOND",
    "CLOCK",
    "DUMMY",
    "STOP",
    "STATUS",
    "TYPE",
    "PAGENUMBER",
    "DONE",
    "REPEAT",
    "CONFLICT",
    "FULL",
    "TIMEOUT",
    "ID",
    "TOH",
    "MASK",
    "SHORT",
    "COUNT",
    "SYSTEM",
    "TWICE",
    "NAVMSG",
    "VALIDITY",
    "FORM",
    "LONG",
];

impl Refusal {
    pub fn number(self) -> u32 {
        self as u32
    }
}

#[cfg(test)]
mod tests {
    use super::*;

    #[test]
    fn numbers_of_the_table() {
        assert_eq!(Refusal::Dummy.number(), 5);
        assert_eq!(Refusal::Done.number(), 10);
        assert_eq!(Refusal::Id.number(), 15);
        assert_eq!(Refusal::System.number(), 20);
        assert_eq!(Refusal::Long.number(), 25);
        assert_eq!(NAMES[Refusal::Mask.number() as usize], "MASK");
        assert_eq!(NAMES[Refusal::PageNumber.number() as usize], "PAGENUMBER");
    }
}
