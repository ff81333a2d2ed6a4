//! Times as people read them: days and minutes of Greenwich.

use std::time::{SystemTime, UNIX_EPOCH};

/// Seconds since the first of January 1970; 0 for a clock that stands before it.
pub fn now() -> u64 {
    let since = SystemTime::now().duration_since(UNIX_EPOCH);
    since.map_or(0, |since| since.as_secs())
}

/// A time as `2026-11-18 00:41 UTC`.
pub fn words(seconds: u64) -> String {
    let (days, minutes) = (seconds / 86_400, seconds % 86_400 / 60);
    let (year, month, day) = date(days);
    let (hour, minute) = (minutes / 60, minutes % 60);
    format!("{year:04}-{month:02}-{day:02} {hour:02}:{minute:02} UTC")
}

/// The date so many days after the first of January 1970. Years are counted from March on, so that
/// the leap day is a year's last.
fn date(days: u64) -> (u64, u64, u64) {
    let days = days + 719_468;
    let (era, of_era) = (days / 146_097, days % 146_097);
    let year = (of_era - of_era / 1_460 + of_era / 36_524 - of_era / 146_096) / 365;
    let of_year = of_era - (365 * year + year / 4 - year / 100);
    let month = (5 * of_year + 2) / 153;
    let day = of_year - (153 * month + 2) / 5 + 1;
    let month = if month < 10 { month + 3 } else { month - 9 };
    (era * 400 + year + u64::from(month <= 2), month, day)
}

#[cfg(test)]
mod tests {
    use super::words;

    #[test]
    fn times_in_words() {
        assert_eq!(words(0), "1970-01-01 00:00 UTC");
        assert_eq!(words(951_782_399), "2000-02-28 23:59 UTC");
        assert_eq!(words(951_782_400), "2000-02-29 00:00 UTC");
        assert_eq!(words(1_794_962_474), "2026-11-18 00:41 UTC");
        assert_eq!(words(4_107_542_400), "2100-03-01 00:00 UTC");
    }
}
