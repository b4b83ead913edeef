//! Reference time (01, the end of Records): the start of the reception hour plus the time of hour.

use crate::refusal::Refusal;

/// The last GST second: 4,096 weeks.
pub const LAST_SECOND: u64 = 2_477_260_799;
pub const LAST_TIME_OF_HOUR: u64 = 3599;

pub fn reference_time(second: u64, time_of_hour: u64) -> Result<u64, Refusal> {
    if second > LAST_SECOND {
        return Err(Refusal::Second);
    }
    if time_of_hour > LAST_TIME_OF_HOUR {
        return Err(Refusal::Toh);
    }
    Ok(second - second % 3600 + time_of_hour)
}

#[cfg(test)]
mod tests {
    use super::*;

    #[test]
    fn range_and_rule() {
        assert_eq!(LAST_SECOND + 1, 4096 * 7 * 86400);
        assert_eq!(reference_time(7205, 10), Ok(7210));
        assert_eq!(reference_time(7205, 5), Ok(7205));
        assert_eq!(reference_time(LAST_SECOND, 3599), Ok(LAST_SECOND));
        assert_eq!(reference_time(LAST_SECOND + 1, 3600), Err(Refusal::Second));
        assert_eq!(reference_time(LAST_SECOND, 3600), Err(Refusal::Toh));
    }
}
