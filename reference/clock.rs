//! Times: those of records, of windows and of texts. They are whole nanoseconds since 1970.

const SECOND: i128 = 1_000_000_000;
/// The start of the year 10000.
const END: i128 = 253_402_300_800 * SECOND;
const DAY: i64 = 86_400;

/// How an interface counts times: draft-ietf-opsawg-pcapng, 4.2.
#[derive(Clone, Copy)]
pub struct Clock {
    power: u8,
    offset: i64,
}

impl Clock {
    pub fn new(power: u8, offset: i64) -> Clock {
        Clock { power, offset }
    }

    /// So many seconds and units, if they are of the years 1970 to 9999.
    pub fn time(self, (seconds, units): (u64, u64)) -> Option<i128> {
        let part = match self.power {
            6 => i128::from(units) * 1_000,
            9 => units.into(),
            power @ 0..=8 => i128::from(units) * 10i128.pow(9 - u32::from(power)),
            power @ 10..=28 => (units / 10u64.pow(u32::from(power) - 9)).into(),
            29..=127 => 0,
            power => i128::from(units) * SECOND >> (power - 128),
        };
        let whole = i128::from(seconds) + i128::from(self.offset);
        let time = whole * SECOND + part;
        (0..END).contains(&time).then_some(time)
    }
}

/// A moment: by itself, or from the capture's first record.
#[derive(Clone, Copy)]
pub struct Moment {
    nanoseconds: i128,
    from_start: bool,
}

impl Moment {
    pub fn at(&self, start: i128) -> i128 {
        match self.from_start {
            true => start + self.nanoseconds,
            false => self.nanoseconds,
        }
    }
}

/// The records that are read: those not before the one moment, nor after the other.
pub struct Window {
    pub since: Option<Moment>,
    pub until: Option<Moment>,
}

impl Window {
    pub fn has(&self, start: i128, time: i128) -> bool {
        self.since
            .as_ref()
            .is_none_or(|since| since.at(start) <= time)
            && self
                .until
                .as_ref()
                .is_none_or(|until| time <= until.at(start))
    }
}

fn digits(text: &str) -> Option<i128> {
    text.bytes()
        .all(|octet| octet.is_ascii_digit())
        .then(|| text.parse().ok())?
}

/// The digits after a point, as so many of such a number of digits.
fn fraction(text: &str, most: usize) -> Option<i128> {
    let is_short = (1..=most).contains(&text.len());
    let whole = is_short.then(|| digits(text))??;
    Some(whole * 10i128.pow((most - text.len()) as u32))
}

/// A number of seconds with a fraction.
fn seconds(text: &str) -> Option<i128> {
    let (whole, part) = match text.split_once('.') {
        Some((whole, part)) => (whole, fraction(part, 9)?),
        None => (text, 0),
    };
    let whole = digits(whole)?;
    (whole >> 64 == 0).then_some(whole * SECOND + part)
}

pub fn moment_of(word: &str) -> Option<Moment> {
    let (nanoseconds, from_start) = match word.split_at_checked(1)? {
        ("@", rest) => (seconds(rest)?, false),
        ("+", rest) => (seconds(rest)?, true),
        _ => (date(word)?, false),
    };
    let moment = Moment {
        nanoseconds,
        from_start,
    };
    (from_start || (0..END).contains(&nanoseconds)).then_some(moment)
}

/// `2026-11-25T13:30:22.5Z`, also without seconds, or with an offset: ISO 8601.
fn date(word: &str) -> Option<i128> {
    let field = |range: std::ops::Range<usize>| word.get(range).and_then(digits);
    let mark = |at: usize, mark: u8| (word.as_bytes().get(at) == Some(&mark)).then_some(());
    let (year, month, day) = (field(0..4)?, field(5..7)?, field(8..10)?);
    let (hour, minute) = (field(11..13)?, field(14..16)?);
    for (at, octet) in [(4, b'-'), (7, b'-'), (10, b'T'), (13, b':')] {
        mark(at, octet)?;
    }
    let (second, rest) = match word.get(16..17)? {
        ":" => (field(17..19)?, word.get(19..)?),
        _ => (0, word.get(16..)?),
    };
    let has_seconds = word.as_bytes()[16] == b':';
    let (part, zone) = match rest.strip_prefix('.') {
        Some(rest) if has_seconds => {
            let end = rest.find(|octet: char| !octet.is_ascii_digit())?;
            (fraction(&rest[..end], 9)?, &rest[end..])
        }
        _ => (0, rest),
    };
    let days = days_of(year as i64, month as i64, day as i64)?;
    if hour > 23 || minute > 59 || second > 59 {
        return None;
    }
    let local = i128::from(days * DAY) + (hour * 60 + minute) * 60 + second;
    Some((local - offset(zone)?) * SECOND + part)
}

fn offset(zone: &str) -> Option<i128> {
    if zone == "Z" {
        return Some(0);
    }
    let sign = match zone.get(..1)? {
        "+" => 1,
        "-" => -1,
        _ => return None,
    };
    let (hours, minutes) = (digits(zone.get(1..3)?)?, digits(zone.get(4..6)?)?);
    let is_one = zone.len() == 6 && zone.as_bytes()[3] == b':' && hours < 24 && minutes < 60;
    is_one.then_some(sign * (hours * 60 + minutes) * 60)
}

fn is_leap(year: i64) -> bool {
    year % 4 == 0 && (year % 100 != 0 || year % 400 == 0)
}

/// Days since 1970 of a date of the Gregorian calendar.
fn days_of(year: i64, month: i64, day: i64) -> Option<i64> {
    let lengths = [
        31,
        28 + i64::from(is_leap(year)),
        31,
        30,
        31,
        30,
        31,
        31,
        30,
        31,
        30,
        31,
    ];
    let length = *lengths.get(usize::try_from(month - 1).ok()?)?;
    if year < 1 || !(1..=length).contains(&day) {
        return None;
    }
    let past = year - 1;
    let before: i64 = lengths[..month as usize - 1].iter().sum();
    Some(past * 365 + past / 4 - past / 100 + past / 400 + before + day - 1 - 719_162)
}

/// The date of so many days since 1970, none of them before.
pub fn date_of(days: i64) -> (i64, u8, u8) {
    // Years that begin in March, counted from the year 0, in eras of 400 years.
    let days = days + 719_468;
    let (era, of_era) = (days / 146_097, days % 146_097);
    let year = (of_era - of_era / 1_460 + of_era / 36_524 - of_era / 146_096) / 365;
    let of_year = of_era - (365 * year + year / 4 - year / 100);
    let month = (5 * of_year + 2) / 153;
    let day = of_year - (153 * month + 2) / 5 + 1;
    let month = if month < 10 { month + 3 } else { month - 9 };
    (
        era * 400 + year + i64::from(month <= 2),
        month as u8,
        day as u8,
    )
}

pub const TEXT: usize = 30;

/// The text of a time, of the years 1970 to 9999.
pub fn octets(time: i128) -> [u8; TEXT] {
    let (seconds, part) = ((time / SECOND) as i64, (time % SECOND) as u32);
    let (year, month, day) = date_of(seconds / DAY);
    let of_day = seconds % DAY;
    let mut text = *b"0000-00-00T00:00:00.000000000Z";
    let mut put = |at: usize, len: usize, mut number: u64| {
        for place in (at..at + len).rev() {
            text[place] = b'0' + (number % 10) as u8;
            number /= 10;
        }
    };
    put(0, 4, year as u64);
    put(5, 2, month.into());
    put(8, 2, day.into());
    put(11, 2, (of_day / 3_600) as u64);
    put(14, 2, (of_day / 60 % 60) as u64);
    put(17, 2, (of_day % 60) as u64);
    put(20, 9, part.into());
    text
}

pub fn text(time: i128) -> String {
    octets(time)
        .iter()
        .map(|octet| char::from(*octet))
        .collect()
}

/// Hundredths of a second, in seconds.
pub fn seconds_text(interval: u16) -> String {
    format!("{}.{:02}", interval / 100, interval % 100)
}

/// A factor, as so many nanoseconds for each hundredth of a second.
pub fn factor_of(word: &str) -> Option<u64> {
    let (whole, part) = match word.split_once('.') {
        Some((whole, part)) => (whole, fraction(part, 7)?),
        None => (word, 0),
    };
    let whole = (!whole.is_empty()).then(|| digits(whole))??;
    let factor = whole.checked_mul(10_000_000)?.checked_add(part)?;
    (1..=10_000_000_000)
        .contains(&factor)
        .then_some(factor as u64)
}
