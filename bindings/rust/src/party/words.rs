//! The words of requests (docs/REFERENCE.md, "session").

use std::fmt::Write;
use std::os::unix::ffi::OsStrExt;
use std::path::Path;

use crate::name::dotted;
use crate::party::PartyError;

/// The octets that a line may have.
pub(crate) const MOST_LINE: usize = 1 << 20;
const DAY: i64 = 24 * 60 * 60;
/// From 0000-01-01T00:00:00Z to 9999-12-31T23:59:59Z.
const MOMENTS: std::ops::RangeInclusive<i64> = -62_167_219_200..=253_402_300_799;

pub(crate) fn hex(octets: &[u8]) -> String {
    octets.iter().fold(
        String::with_capacity(2 * octets.len()),
        |mut text, octet| {
            let _ = write!(text, "{octet:02x}");
            text
        },
    )
}

/// Octets as they stand in a line.
pub(crate) fn octets_word(octets: &[u8]) -> String {
    format!("hex:{}", hex(octets))
}

/// The name of a file, with what could be read otherwise escaped.
pub(crate) fn file_word(path: &Path) -> String {
    let mut word = String::new();
    for octet in path.as_os_str().as_bytes() {
        match octet {
            b'\\' | b':' | b'=' => {
                let _ = write!(word, "\\{octet:02x}");
            }
            0x21..=0x7E => word.push(char::from(*octet)),
            _ => {
                let _ = write!(word, "\\{octet:02x}");
            }
        }
    }
    word
}

/// The year, the month and the day of the Gregorian calendar, so many days after 1970-01-01.
fn date_of(days: i64) -> (i64, i64, i64) {
    // Years begin in March here, so that a leap day ends one; 400 of them have 146,097 days.
    let days = days + 719_468;
    let (era, day_of_era) = (days.div_euclid(146_097), days.rem_euclid(146_097));
    let year_of_era =
        (day_of_era - day_of_era / 1_460 + day_of_era / 36_524 - day_of_era / 146_096) / 365;
    let day_of_year = day_of_era - (365 * year_of_era + year_of_era / 4 - year_of_era / 100);
    let month_from_march = (5 * day_of_year + 2) / 153;
    let day = day_of_year - (153 * month_from_march + 2) / 5 + 1;
    let month = if month_from_march < 10 {
        month_from_march + 3
    } else {
        month_from_march - 9
    };
    let year = year_of_era + era * 400 + i64::from(month <= 2);
    (year, month, day)
}

/// A moment in seconds since 1970 as `YYYYMMDDHHMMSSZ`.
pub(crate) fn moment_word(moment: i64) -> Result<String, PartyError> {
    if !MOMENTS.contains(&moment) {
        return Err(PartyError::Request(
            "the moment lies outside the years 0 to 9999",
        ));
    }
    let (year, month, day) = date_of(moment.div_euclid(DAY));
    let second = moment.rem_euclid(DAY);
    Ok(format!(
        "{year:04}{month:02}{day:02}{:02}{:02}{:02}Z",
        second / 3600,
        second / 60 % 60,
        second % 60
    ))
}

/// The word of a purpose, with a space in front; nothing if none is asked. The contents were checked before.
pub(crate) fn purpose_word(purpose: Option<&[u8]>) -> Result<String, PartyError> {
    let Some(contents) = purpose else {
        return Ok(String::new());
    };
    match dotted(contents) {
        Some(numbers) => Ok(format!(" purpose={numbers}")),
        None => Err(PartyError::Request(
            "the purpose has a number that no request may have",
        )),
    }
}

#[cfg(test)]
mod tests {
    use super::*;

    /// As `date -u -d @SECONDS +%Y%m%d%H%M%SZ` prints them, and the two ends of the range.
    #[test]
    fn moments() {
        for (moment, word) in [
            (0, "19700101000000Z"),
            (-1, "19691231235959Z"),
            (951_782_400, "20000229000000Z"),
            (951_868_799, "20000229235959Z"),
            (951_868_800, "20000301000000Z"),
            (1_796_083_200, "20261201000000Z"),
            (4_107_542_400, "21000301000000Z"),
            (-62_167_219_200, "00000101000000Z"),
            (253_402_300_799, "99991231235959Z"),
        ] {
            assert_eq!(moment_word(moment).as_deref(), Ok(word));
        }
        for moment in [-62_167_219_201, 253_402_300_800, i64::MIN, i64::MAX] {
            assert!(moment_word(moment).is_err(), "{moment}");
        }
    }

    #[test]
    fn names_of_files_are_one_word() {
        assert_eq!(
            file_word(Path::new("/a b/c\\d:e=\n\u{e9}")),
            "/a\\20b/c\\5cd\\3ae\\3d\\0a\\c3\\a9"
        );
    }

    #[test]
    fn purposes() {
        let server_auth = [0x2B, 6, 1, 5, 5, 7, 3, 1];
        assert_eq!(
            purpose_word(Some(&server_auth)).as_deref(),
            Ok(" purpose=1.3.6.1.5.5.7.3.1")
        );
        assert_eq!(purpose_word(None).as_deref(), Ok(""));
        assert!(purpose_word(Some(&[0xFF; 20])).is_err());
    }
}
