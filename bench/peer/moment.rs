//! Times as texts, for the plain peers. Not each peer uses all of it.
#![allow(dead_code)]

// Times are in units of 100 ns.
pub const SECOND: u64 = 10_000_000;
pub const MINUTE: u64 = 60 * SECOND;
pub const HOUR: u64 = 60 * MINUTE;
pub const DAY: u64 = 24 * HOUR;

pub const MAX_INACCURACY: u64 = UNSPECIFIED - 1;
pub const UNSPECIFIED: u64 = (1 << 48) - 1;

// Days from 1970-01-01 to a date. Years begin in March here, so that a leap day is the last of its year.
pub fn days_of_date(year: i64, month: i64, day: i64) -> i64 {
    let year = if month < 3 { year - 1 } else { year };
    let day_of_year = (153 * ((month + 9) % 12) + 2) / 5 + day - 1;
    365 * year + year / 4 - year / 100 + year / 400 + day_of_year - 719_468
}

// The year, month and day that many days after 1970-01-01.
pub fn date_of_days(days: i64) -> (i64, i64, i64) {
    let days = days + 719_468;
    let (era, day) = (days.div_euclid(146_097), days.rem_euclid(146_097));
    let year = (day - day / 1460 + day / 36_524 - day / 146_096) / 365;
    let day_of_year = day - (365 * year + year / 4 - year / 100);
    let month = (5 * day_of_year + 2) / 153;
    let day = day_of_year - (153 * month + 2) / 5 + 1;
    let month = if month < 10 { month + 3 } else { month - 9 };
    (400 * era + year + i64::from(month < 3), month, day)
}

pub fn days_of_month(year: u64, month: u64) -> u64 {
    match month {
        2 if year.is_multiple_of(4) && (!year.is_multiple_of(100) || year.is_multiple_of(400)) => 29,
        2 => 28,
        4 | 6 | 9 | 11 => 30,
        _ => 31,
    }
}

// Days from 1582-10-15, where times begin, to 1970-01-01.
pub const DAYS_TO_1970: i64 = 141_427;

// What is left of a text of a time. Each field is taken from its front.
pub struct Left<'a>(pub &'a [u8]);

impl<'a> Left<'a> {
    pub fn skip(&mut self, text: &[u8]) -> bool {
        let rest = self.0.strip_prefix(text);
        self.0 = rest.unwrap_or(self.0);
        rest.is_some()
    }

    // All the digits that stand there, where they are that many.
    pub fn digits(&mut self, least: usize, most: usize) -> Option<&'a [u8]> {
        let count = self.0.iter().take_while(|octet| octet.is_ascii_digit()).count();
        let (digits, rest) = self.0.split_at(count);
        self.0 = rest;
        (least <= count && count <= most).then_some(digits)
    }

    pub fn part(&mut self, separator: &[u8], low: u64, high: u64) -> Option<u64> {
        if !self.skip(separator) {
            return None;
        }
        let part = number_of(self.digits(2, 2)?);
        (low <= part && part <= high).then_some(part)
    }

    pub fn date(&mut self) -> Option<i64> {
        let year = number_of(self.digits(4, 4)?);
        if year < 1582 {
            return None;
        }
        let month = self.part(b"-", 1, 12)?;
        let day = self.part(b"-", 1, days_of_month(year, month))?;
        Some(days_of_date(year as i64, month as i64, day as i64))
    }

    pub fn fraction(&mut self) -> Option<u64> {
        if !self.skip(b".") {
            return Some(0);
        }
        let digits = self.digits(0, 7)?;
        Some(number_of(digits) * 10u64.pow(7 - digits.len() as u32))
    }

    pub fn clock(&mut self) -> Option<u64> {
        let hour = self.part(b"-", 0, 23)?;
        let minute = self.part(b":", 0, 59)?;
        let second = self.part(b":", 0, 59)?;
        Some(hour * HOUR + minute * MINUTE + second * SECOND + self.fraction()?)
    }

    pub fn tdf(&mut self) -> Option<i16> {
        let (sign, separator): (i16, &[u8]) = match self.0.first() {
            Some(b'+') => (1, b"+"),
            Some(b'-') => (-1, b"-"),
            _ => return Some(0),
        };
        let hours = self.part(separator, 0, 23)?;
        let minutes = self.part(b":", 0, 59)?;
        Some(sign * (hours * 60 + minutes) as i16)
    }

    // The last field of a text: none inside where it is unspecified.
    pub fn inaccuracy(&mut self) -> Option<Option<u64>> {
        let inaccuracy = if !self.skip(b"I") || self.skip(b"-----") || self.skip(b"inf") {
            None
        } else {
            let seconds = number_of(self.digits(1, 9)?);
            let units = seconds * SECOND + self.fraction()?;
            if units > MAX_INACCURACY {
                return None;
            }
            Some(units)
        };
        self.0.is_empty().then_some(inaccuracy)
    }
}

pub fn number_of(digits: &[u8]) -> u64 {
    digits.iter().fold(0, |number, digit| number * 10 + u64::from(digit - b'0'))
}

// A moment: its time since 1582-10-15 in UTC, its time differential factor in minutes, and its inaccuracy.
pub fn moment(text: &[u8]) -> Option<(i64, i16, Option<u64>)> {
    let mut left = Left(text);
    let days = left.date()? + DAYS_TO_1970;
    let local = days * DAY as i64 + left.clock()? as i64;
    let tdf = left.tdf()?;
    let inaccuracy = left.inaccuracy()?;
    Some((local - i64::from(tdf) * MINUTE as i64, tdf, inaccuracy))
}
