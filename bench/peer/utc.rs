//! A plain calculator of timestamps, for scale beside the proved program. It writes each answer by one call, as the
//! proved program does, so both pay for one system call a line, and the ratio of their times tells of the rest.
mod moment;

use moment::{DAY, DAYS_TO_1970, HOUR, Left, MAX_INACCURACY, MINUTE, SECOND, UNSPECIFIED, date_of_days, moment, number_of};
use std::cmp::Ordering;
use std::fmt::{Display, Formatter, Write as _};
use std::io::{BufRead, BufReader, Error, ErrorKind, Write, stdin, stdout};

const MAX_LENGTH: usize = 16_384;
const MAX_LINES: u64 = (1 << 32) - 1;

const MAX_DAYS: u64 = 10_675_199;
const MAX_TDF: i16 = 1439;

enum Fault {
    Line,
    Time,
    Number,
    Octets,
    Kinds,
    Overflow,
    OutOfOrder,
    Unspecified,
    Tdf,
    Year,
}

impl Display for Fault {
    fn fmt(&self, f: &mut Formatter) -> std::fmt::Result {
        f.write_str(match self {
            Fault::Line => "no such line",
            Fault::Time => "no such time",
            Fault::Number => "no such number",
            Fault::Octets => "no such octets",
            Fault::Kinds => "the kinds of the operands do not allow it",
            Fault::Overflow => "the time of the result is out of range",
            Fault::OutOfOrder => "the first operand begins after the second ends",
            Fault::Unspecified => "the inaccuracy of the operand is unspecified",
            Fault::Tdf => "the time differential factor is a day or more",
            Fault::Year => "a year outside 1582 to 9999",
        })
    }
}

type Result<T> = std::result::Result<T, Fault>;

#[derive(Clone, Copy, PartialEq, Eq)]
enum Kind {
    Absolute,
    Relative,
}

#[derive(Clone, Copy)]
struct Utc {
    kind: Kind,
    time: i64,
    inaccuracy: Option<u64>,
    tdf: i16,
}

enum Operation {
    Add(Utc, Utc),
    Sub(Utc, Utc),
    Abs(Utc),
    Mul(Utc, i32),
    Span(Utc, Utc),
    Bound(Utc, Utc),
    Tdf(Utc, i16),
    Interval(Utc, Utc),
    Mid(Utc, Utc),
    Point(Utc),
    Bytes(Utc),
    Text(Utc),
}

enum Outcome {
    Time(Utc),
    Points([Utc; 3]),
    Order(Option<Ordering>),
    Octets(u128),
}

fn absolute(text: &[u8]) -> Option<Utc> {
    let (time, tdf, inaccuracy) = moment(text)?;
    Some(Utc { kind: Kind::Absolute, time, inaccuracy, tdf })
}

fn relative(text: &[u8]) -> Option<Utc> {
    let mut left = Left(text);
    let negative = left.skip(b"-");
    let days = number_of(left.digits(1, 8)?);
    if days > MAX_DAYS {
        return None;
    }
    let units = i128::from(days * DAY + left.clock()?);
    let time = i64::try_from(if negative { -units } else { units }).ok()?;
    Some(Utc { kind: Kind::Relative, time, inaccuracy: left.inaccuracy()?, tdf: 0 })
}

fn time(field: &[u8]) -> Result<Utc> {
    absolute(field).or_else(|| relative(field)).ok_or(Fault::Time)
}

fn number(field: &[u8]) -> Result<i32> {
    if let [b'+', ..] | [b'0', _, ..] | [b'-', b'0', ..] = field {
        return Err(Fault::Number);
    }
    let text = str::from_utf8(field).map_err(|_| Fault::Number)?;
    text.parse().map_err(|_| Fault::Number)
}

fn minutes(field: &[u8]) -> Result<i16> {
    number(field)?.try_into().map_err(|_| Fault::Number)
}

fn octets(field: &[u8]) -> Result<Utc> {
    if field.len() != 32 || !field.iter().all(u8::is_ascii_hexdigit) {
        return Err(Fault::Octets);
    }
    let text = str::from_utf8(field).map_err(|_| Fault::Octets)?;
    let octets = u128::from_str_radix(text, 16).map_err(|_| Fault::Octets)?;
    Utc::from_octets(octets.swap_bytes()).ok_or(Fault::Octets)
}

fn parse(line: &[u8]) -> Result<Operation> {
    let mut fields = line.split(|octet| *octet == b' ');
    let fields = [fields.next(), fields.next(), fields.next(), fields.next()];
    Ok(match fields {
        [Some(b"add"), Some(a), Some(b), None] => Operation::Add(time(a)?, time(b)?),
        [Some(b"sub"), Some(a), Some(b), None] => Operation::Sub(time(a)?, time(b)?),
        [Some(b"abs"), Some(a), None, _] => Operation::Abs(time(a)?),
        [Some(b"mul"), Some(a), Some(k), None] => Operation::Mul(time(a)?, number(k)?),
        [Some(b"span"), Some(a), Some(b), None] => Operation::Span(time(a)?, time(b)?),
        [Some(b"bound"), Some(a), Some(b), None] => Operation::Bound(time(a)?, time(b)?),
        [Some(b"tdf"), Some(a), Some(t), None] => Operation::Tdf(time(a)?, minutes(t)?),
        [Some(b"interval"), Some(a), Some(b), None] => Operation::Interval(time(a)?, time(b)?),
        [Some(b"mid"), Some(a), Some(b), None] => Operation::Mid(time(a)?, time(b)?),
        [Some(b"point"), Some(a), None, _] => Operation::Point(time(a)?),
        [Some(b"bytes"), Some(a), None, _] => Operation::Bytes(time(a)?),
        [Some(b"text"), Some(hex), None, _] => Operation::Text(octets(hex)?),
        _ => return Err(Fault::Line),
    })
}

fn stated(units: u64) -> Option<u64> {
    (units <= MAX_INACCURACY).then_some(units)
}

fn both(a: Option<u64>, b: Option<u64>) -> Option<u64> {
    stated(a? + b?)
}

fn halfway(a: i128, b: i128) -> i128 {
    (a + b).div_euclid(2)
}

impl Utc {
    // The octets as a number, of which the first octet is the least.
    fn to_octets(self) -> u128 {
        let version: u16 = match self.kind {
            Kind::Absolute => 1,
            Kind::Relative => 2,
        };
        let last = version << 12 | self.tdf as u16 & 0xfff;
        let inaccuracy = self.inaccuracy.unwrap_or(UNSPECIFIED);
        u128::from(last) << 112 | u128::from(inaccuracy) << 64 | u128::from(self.time as u64)
    }

    fn from_octets(octets: u128) -> Option<Utc> {
        let last = (octets >> 112) as u16;
        let tdf = (last << 4) as i16 >> 4;
        let kind = match last >> 12 {
            1 if (-MAX_TDF..=MAX_TDF).contains(&tdf) => Kind::Absolute,
            2 if tdf == 0 => Kind::Relative,
            _ => return None,
        };
        let inaccuracy = stated((octets >> 64) as u64 & UNSPECIFIED);
        Some(Utc { kind, time: octets as i64, inaccuracy, tdf })
    }

    fn ends(self) -> Option<(i128, i128)> {
        let (time, half) = (i128::from(self.time), i128::from(self.inaccuracy?));
        Some((time - half, time + half))
    }

    fn is_like(self, other: Utc) -> Result<()> {
        if self.kind == other.kind { Ok(()) } else { Err(Fault::Kinds) }
    }

    fn is_of(self, kind: Kind) -> Result<()> {
        if self.kind == kind { Ok(()) } else { Err(Fault::Kinds) }
    }

    fn at(self, time: i128, inaccuracy: Option<u64>) -> Result<Utc> {
        let time = i64::try_from(time).map_err(|_| Fault::Overflow)?;
        Ok(Utc { time, inaccuracy, ..self })
    }

    fn between(self, low: i128, high: i128) -> Result<Utc> {
        let time = halfway(low, high);
        self.at(time, u64::try_from(high - time).ok().and_then(stated))
    }
}

fn add(a: Utc, b: Utc) -> Result<Utc> {
    let (kind, tdf) = match (a.kind, b.kind) {
        (Kind::Absolute, Kind::Absolute) => return Err(Fault::Kinds),
        (Kind::Absolute, Kind::Relative) => (Kind::Absolute, a.tdf),
        (Kind::Relative, _) => (b.kind, b.tdf),
    };
    let time = a.time.checked_add(b.time).ok_or(Fault::Overflow)?;
    Ok(Utc { kind, time, inaccuracy: both(a.inaccuracy, b.inaccuracy), tdf })
}

fn sub(a: Utc, b: Utc) -> Result<Utc> {
    let (kind, tdf) = match (a.kind, b.kind) {
        (Kind::Relative, Kind::Absolute) => return Err(Fault::Kinds),
        (Kind::Absolute, Kind::Relative) => (Kind::Absolute, a.tdf),
        _ => (Kind::Relative, 0),
    };
    let time = a.time.checked_sub(b.time).ok_or(Fault::Overflow)?;
    Ok(Utc { kind, time, inaccuracy: both(a.inaccuracy, b.inaccuracy), tdf })
}

fn abs(a: Utc) -> Result<Utc> {
    a.is_of(Kind::Relative)?;
    let time = a.time.checked_abs().ok_or(Fault::Overflow)?;
    Ok(Utc { time, ..a })
}

fn mul(a: Utc, k: i32) -> Result<Utc> {
    a.is_of(Kind::Relative)?;
    let time = a.time.checked_mul(i64::from(k)).ok_or(Fault::Overflow)?;
    let inaccuracy = a.inaccuracy.and_then(|units| units.checked_mul(u64::from(k.unsigned_abs())));
    Ok(Utc { time, inaccuracy: inaccuracy.and_then(stated), ..a })
}

fn span(a: Utc, b: Utc) -> Result<Utc> {
    a.is_like(b)?;
    match (a.ends(), b.ends()) {
        (Some((low, high)), Some((other_low, other_high))) => a.between(low.min(other_low), high.max(other_high)),
        _ => a.at(halfway(a.time.into(), b.time.into()), None),
    }
}

fn bound(a: Utc, b: Utc) -> Result<Utc> {
    a.is_like(b)?;
    match (a.ends(), b.ends()) {
        (Some((low, _)), Some((_, high))) if high < low => Err(Fault::OutOfOrder),
        (Some((low, _)), Some((_, high))) => a.between(low, high),
        _ => a.at(halfway(a.time.into(), b.time.into()), None),
    }
}

fn with_tdf(a: Utc, tdf: i16) -> Result<Utc> {
    a.is_of(Kind::Absolute)?;
    if (-MAX_TDF..=MAX_TDF).contains(&tdf) { Ok(Utc { tdf, ..a }) } else { Err(Fault::Tdf) }
}

// None where neither can be said.
fn compare_intervals(a: Utc, b: Utc) -> Result<Option<Ordering>> {
    a.is_like(b)?;
    let (Some(first), Some(second)) = (a.ends(), b.ends()) else {
        return Ok(None);
    };
    Ok(if first.1 < second.0 {
        Some(Ordering::Less)
    } else if second.1 < first.0 {
        Some(Ordering::Greater)
    } else if first == second && first.0 == first.1 {
        Some(Ordering::Equal)
    } else {
        None
    })
}

fn compare_times(a: Utc, b: Utc) -> Result<Option<Ordering>> {
    a.is_like(b)?;
    Ok(Some(a.time.cmp(&b.time)))
}

fn points(a: Utc) -> Result<[Utc; 3]> {
    let (low, high) = a.ends().ok_or(Fault::Unspecified)?;
    Ok([a.at(low, Some(0))?, a.at(a.time.into(), Some(0))?, a.at(high, Some(0))?])
}

fn compute(operation: Operation) -> Result<Outcome> {
    Ok(match operation {
        Operation::Add(a, b) => Outcome::Time(add(a, b)?),
        Operation::Sub(a, b) => Outcome::Time(sub(a, b)?),
        Operation::Abs(a) => Outcome::Time(abs(a)?),
        Operation::Mul(a, k) => Outcome::Time(mul(a, k)?),
        Operation::Span(a, b) => Outcome::Time(span(a, b)?),
        Operation::Bound(a, b) => Outcome::Time(bound(a, b)?),
        Operation::Tdf(a, t) => Outcome::Time(with_tdf(a, t)?),
        Operation::Interval(a, b) => Outcome::Order(compare_intervals(a, b)?),
        Operation::Mid(a, b) => Outcome::Order(compare_times(a, b)?),
        Operation::Point(a) => Outcome::Points(points(a)?),
        Operation::Bytes(a) => Outcome::Octets(a.to_octets()),
        Operation::Text(a) => Outcome::Time(a),
    })
}

// Writing into a string never fails.
macro_rules! put {
    ($out:expr, $($words:tt)*) => { write!($out, $($words)*).expect("memory") };
}

fn put_clock(out: &mut String, units: u64) {
    let (hour, minute) = (units / HOUR % 24, units / MINUTE % 60);
    let (second, fraction) = (units / SECOND % 60, units % SECOND);
    put!(out, "-{hour:02}:{minute:02}:{second:02}.{fraction:07}");
}

fn put_absolute(out: &mut String, a: Utc) -> Result<()> {
    let shift = i64::from(a.tdf) * MINUTE as i64;
    let local = a.time.checked_add(shift).ok_or(Fault::Year)?;
    let days = local.div_euclid(DAY as i64);
    let (year, month, day) = date_of_days(days - DAYS_TO_1970);
    if !(1582..=9999).contains(&year) {
        return Err(Fault::Year);
    }
    put!(out, "{year:04}-{month:02}-{day:02}");
    put_clock(out, local.rem_euclid(DAY as i64) as u64);
    let (sign, minutes) = (if a.tdf < 0 { '-' } else { '+' }, a.tdf.unsigned_abs());
    put!(out, "{sign}{:02}:{:02}", minutes / 60, minutes % 60);
    Ok(())
}

fn put_relative(out: &mut String, a: Utc) {
    let (sign, units) = (if a.time < 0 { "-" } else { "" }, a.time.unsigned_abs());
    put!(out, "{sign}{:02}", units / DAY);
    put_clock(out, units);
}

fn put_time(out: &mut String, a: Utc) -> Result<()> {
    match a.kind {
        Kind::Absolute => put_absolute(out, a)?,
        Kind::Relative => put_relative(out, a),
    }
    match a.inaccuracy {
        Some(units) => put!(out, "I{}.{:07}", units / SECOND, units % SECOND),
        None => out.push_str("I-----"),
    }
    Ok(())
}

fn put_outcome(out: &mut String, outcome: Outcome) -> Result<()> {
    match outcome {
        Outcome::Time(a) => put_time(out, a)?,
        Outcome::Points([first, middle, last]) => {
            put_time(out, first)?;
            out.push(' ');
            put_time(out, middle)?;
            out.push(' ');
            put_time(out, last)?;
        }
        Outcome::Order(order) => out.push_str(match order {
            Some(Ordering::Equal) => "equalTo",
            Some(Ordering::Less) => "lessThan",
            Some(Ordering::Greater) => "greaterThan",
            None => "indeterminate",
        }),
        Outcome::Octets(octets) => put!(out, "{:032x}", octets.swap_bytes()),
    }
    out.push('\n');
    Ok(())
}

// Puts the answer to the line of that number into the string.
fn answer(number: u64, line: &[u8], out: &mut String) -> Result<()> {
    if number > MAX_LINES || line.len() > MAX_LENGTH {
        return Err(Fault::Line);
    }
    put_outcome(out, compute(parse(line)?)?)
}

fn main() -> std::io::Result<()> {
    let mut input = BufReader::with_capacity(65_536, stdin().lock());
    // A line that ends with its line feed goes through this writer's buffer by one call at once.
    let mut output = stdout().lock();
    let (mut line, mut out, mut number) = (Vec::new(), String::new(), 0);
    while input.read_until(b'\n', &mut line)? > 0 {
        if line.ends_with(b"\n") {
            line.pop();
        }
        number += 1;
        out.clear();
        let answered = answer(number, &line, &mut out);
        answered.map_err(|fault| Error::new(ErrorKind::InvalidData, format!("line {number}: {fault}")))?;
        output.write_all(out.as_bytes())?;
        line.clear();
    }
    Ok(())
}
