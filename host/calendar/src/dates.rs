//! Instants, date texts and shifts, written from document 01, "Dates", and document 001's list of forms.
//!
//! Days are counted by one formula over years that begin in March, in 128 bits, so that nothing wraps and no year, month
//! or amount is a special case. A date is valid if its day, counted and turned back, is that date again: there is no
//! table of months. Texts are read from left to right by a cursor.

pub const EARLIEST: i64 = -62_167_219_200_000;
pub const LATEST: i64 = 253_402_300_799_999;
const MS_PER_HOUR: i128 = 3_600_000;
const MS_PER_DAY: i128 = 24 * MS_PER_HOUR;

/// Why there is no instant.
#[derive(Clone, Copy, Debug, PartialEq, Eq)]
pub enum Refusal {
    NoDate,
    OutOfRange,
}

impl Refusal {
    /// The number in document 01's table.
    pub fn number(self) -> u32 {
        match self {
            Refusal::NoDate => 8,
            Refusal::OutOfRange => 9,
        }
    }
}

#[derive(Clone, Copy, Debug, PartialEq, Eq)]
pub enum Unit {
    Year,
    Month,
    Day,
    Hour,
}

/// An instant if it lies in the range.
fn ranged(ms: i128) -> Result<i64, Refusal> {
    i64::try_from(ms).ok().filter(|ms| (EARLIEST..=LATEST).contains(ms)).ok_or(Refusal::OutOfRange)
}

// ---- days, counted from 1970-01-01

/// The day of a date of any year; days past the month's end run on.
fn day_of(year: i128, month: i128, day: i128) -> i128 {
    let years = if month > 2 { year } else { year - 1 }; // whole years from March to March
    let days = (153 * ((month + 9) % 12) + 2) / 5; // of the months since March
    365 * years + years.div_euclid(4) - years.div_euclid(100) + years.div_euclid(400) + days + day - 1 - 719_468
}

/// The year, month and day of a day.
pub fn date_of(day: i128) -> (i128, i128, i128) {
    let since = day + 719_468; // 0000-03-01
    let era = since.div_euclid(146_097);
    let of_era = since.rem_euclid(146_097);
    let year_of_era = (of_era - of_era / 1_460 + of_era / 36_524 - of_era / 146_096) / 365;
    let of_year = of_era - (365 * year_of_era + year_of_era / 4 - year_of_era / 100);
    let months = (5 * of_year + 2) / 153; // since March
    let day = of_year - (153 * months + 2) / 5 + 1;
    let month = if months < 10 { months + 3 } else { months - 9 };
    (400 * era + year_of_era + i128::from(month <= 2), month, day)
}

/// The day of a date that there is.
fn valid(year: i128, month: i128, day: i128) -> Option<i128> {
    let counted = day_of(year, month, day);
    Some(counted).filter(|&counted| date_of(counted) == (year, month, day))
}

/// The day before the first of the next month.
fn month_end(year: i128, month: i128) -> Option<i128> {
    let first = valid(year, month, 1)?;
    let (later_year, later_month, _) = date_of(first + 31);
    Some(day_of(later_year, later_month, 1) - 1)
}

// ---- texts

/// What is left of a text. Each reading function gives None if the text does not go on so.
struct Rest<'a>(&'a [u8]);

impl<'a> Rest<'a> {
    fn ended(&self) -> bool {
        self.0.is_empty()
    }

    /// One of these bytes.
    fn byte(&mut self, allowed: &[u8]) -> Option<u8> {
        let (&first, rest) = self.0.split_first()?;
        self.0 = rest;
        Some(first).filter(|first| allowed.contains(first))
    }

    /// As many digits as there are.
    fn digits(&mut self) -> &'a [u8] {
        let count = self.0.iter().take_while(|byte| byte.is_ascii_digit()).count();
        let (digits, rest) = self.0.split_at(count);
        self.0 = rest;
        digits
    }

    /// A number of exactly so many digits, whatever follows.
    fn number(&mut self, count: usize) -> Option<i128> {
        let digits = self.0.get(..count)?;
        self.0 = &self.0[count..];
        number(digits)
    }

    /// YYYY-MM-DD, or at the text's end YYYY or YYYY-MM, which stand for their last day.
    fn day(&mut self) -> Option<i128> {
        let year = self.number(4)?;
        if self.ended() {
            return month_end(year, 12);
        }
        self.byte(b"-")?;
        let month = self.number(2)?;
        if self.ended() {
            return month_end(year, month);
        }
        self.byte(b"-")?;
        valid(year, month, self.number(2)?)
    }

    /// hh:mm:ss with a fraction or without, in milliseconds.
    fn time(&mut self) -> Option<i128> {
        let hour = self.number(2).filter(|&hour| hour < 24)?;
        self.byte(b":")?;
        let minute = self.number(2).filter(|&minute| minute < 60)?;
        self.byte(b":")?;
        let second = self.number(2).filter(|&second| second < 60)?;
        let whole = hour * MS_PER_HOUR + minute * 60_000 + second * 1_000;
        if self.0.first() != Some(&b'.') {
            return Some(whole);
        }
        self.byte(b".")?;
        let fraction = self.digits();
        if !(1..=9).contains(&fraction.len()) {
            return None;
        }
        let mut nanoseconds = fraction.to_vec();
        nanoseconds.resize(9, b'0');
        Some(whole + number(&nanoseconds)? / 1_000_000)
    }

    /// What local time is ahead of UTC, in milliseconds; nothing and Z are 0.
    fn ahead(&mut self) -> Option<i128> {
        if self.ended() {
            return Some(0);
        }
        let sign = match self.byte(b"Z+-")? {
            b'Z' => return Some(0),
            b'+' => 1,
            _ => -1,
        };
        let digits = self.digits();
        let (hours, minutes) = if self.ended() {
            match digits.len() {
                1 | 2 => (number(digits)?, 0),
                3 | 4 => (number(digits)? / 100, number(digits)? % 100),
                _ => return None,
            }
        } else {
            self.byte(b":")?;
            let hours = Some(digits).filter(|digits| (1..=2).contains(&digits.len())).and_then(number)?;
            (hours, self.number(2)?)
        };
        Some(sign * (hours * 60 + minutes) * 60_000).filter(|_| hours < 24 && minutes < 60)
    }

    /// A value that was read, if nothing is left.
    fn whole<T>(&self, value: T) -> Option<T> {
        Some(value).filter(|_| self.ended())
    }
}

fn number(digits: &[u8]) -> Option<i128> {
    let digits = Some(digits).filter(|digits| digits.iter().all(u8::is_ascii_digit))?;
    std::str::from_utf8(digits).ok()?.parse().ok()
}

fn day_text(text: &[u8]) -> Option<i128> {
    let mut rest = Rest(text);
    let day = rest.day()?;
    rest.whole(day * MS_PER_DAY)
}

fn date_text(text: &[u8]) -> Option<i128> {
    let mut rest = Rest(text);
    let day = rest.day()? * MS_PER_DAY;
    if rest.ended() {
        return Some(day);
    }
    rest.byte(b"T")?;
    let time = rest.time()?;
    let ahead = rest.ahead()?;
    rest.whole(day + time - ahead)
}

/// A text of one of the nineteen forms.
pub fn read_date(text: &[u8]) -> Result<i64, Refusal> {
    date_text(text).ok_or(Refusal::NoDate).and_then(ranged)
}

/// Of one of the first three.
pub fn read_day(text: &[u8]) -> Result<i64, Refusal> {
    day_text(text).ok_or(Refusal::NoDate).and_then(ranged)
}

// ---- shifts and the text of an instant

/// As ECMAScript's setUTCFullYear, setUTCMonth, setUTCDate and setUTCHours.
pub fn shift(from: i64, amount: i64, unit: Unit) -> Result<i64, Refusal> {
    let from = i128::from(ranged(from.into())?);
    let amount = i128::from(amount);
    let (year, month, day) = date_of(from.div_euclid(MS_PER_DAY));
    let months = match unit {
        Unit::Day => return ranged(from + amount * MS_PER_DAY),
        Unit::Hour => return ranged(from + amount * MS_PER_HOUR),
        Unit::Year => year * 12 + month - 1 + amount * 12,
        Unit::Month => year * 12 + month - 1 + amount,
    };
    let shifted = day_of(months.div_euclid(12), months.rem_euclid(12) + 1, day);
    ranged(shifted * MS_PER_DAY + from.rem_euclid(MS_PER_DAY))
}

/// The text of 24 bytes of an instant in range.
pub fn text(ms: i64) -> Result<[u8; 24], Refusal> {
    let ms = i128::from(ranged(ms.into())?);
    let (year, month, day) = date_of(ms.div_euclid(MS_PER_DAY));
    let time = ms.rem_euclid(MS_PER_DAY);
    let (hour, minute, second) = (time / MS_PER_HOUR, time / 60_000 % 60, time / 1_000 % 60);
    let mut text = *b"0000-00-00T00:00:00.000Z";
    for (end, number) in [(4, year), (7, month), (10, day), (13, hour), (16, minute), (19, second), (23, time % 1_000)]
    {
        let digits = number.to_string();
        text[end - digits.len()..end].copy_from_slice(digits.as_bytes());
    }
    Ok(text)
}
