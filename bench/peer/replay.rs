//! A plain replay of captures with `start`, `tick`, `read`, `query`, `source` and `adopt` lines at the usual rates, for
//! scale beside the proved program. It writes the log of each event by one call, as the proved program does: a log that
//! stops part-way then ends with a whole line, and whoever follows it sees each line at once. So both pay for one system
//! call an event, and the ratio of their times tells of the rest.
mod clock;

use clock::{Anchor, Record, Round};
use std::fmt::{self, Write as _};
use std::io::{BufRead, BufReader, Error, ErrorKind, Result, Write, stdin, stdout};

const MAX_LENGTH: usize = 16_384;
const MAX_OSC: u64 = 1 << 60;
const MAX_COUNT: u64 = 1 << 61;
const MAX_TAGS: usize = 64;

fn print(record: &Record, log: &mut String) -> fmt::Result {
    write!(log, "record {} {} {} ", record.number, record.step, record.born)?;
    match record.anchor {
        Some(Anchor { osc, lo, hi }) => write!(log, "{osc} {lo} {hi}")?,
        None => write!(log, "- - -")?,
    }
    let Record { from, value, slew, next_from, next_slew, .. } = record;
    writeln!(log, " {from} {value} {slew} {next_from} {next_slew}")
}

struct Node {
    current: Record,
    last_sync: u64,
    last_read: u64,
    round: Round,
}

impl Node {
    fn read(&mut self, osc: u64, log: &mut String) -> fmt::Result {
        let floor = self.last_read.max(self.current.born);
        if osc < floor {
            return writeln!(log, "note {osc} - regressed {floor}");
        }
        self.last_read = osc;
        let Record { step, number, .. } = self.current;
        match self.current.reading(osc) {
            (value, Some(inaccuracy)) => writeln!(log, "reading {osc} {value} {inaccuracy} {step} {number}"),
            (value, None) => writeln!(log, "reading {osc} {value} - {step} {number}"),
        }
    }

    // Whether an event of the sync part is live; if not, that is noted.
    fn is_live(&mut self, osc: u64, log: &mut String) -> std::result::Result<bool, fmt::Error> {
        if osc < self.last_sync {
            writeln!(log, "note {osc} - regressed {}", self.last_sync)?;
            return Ok(false);
        }
        self.last_sync = osc;
        Ok(true)
    }

    fn tick(&mut self, osc: u64, log: &mut String) -> fmt::Result {
        if self.is_live(osc, log)? && let Some(next) = self.current.renewed(osc) {
            self.current = next;
            print(&next, log)?;
        }
        Ok(())
    }

    fn query(&mut self, osc: u64, tag: u32, log: &mut String) -> fmt::Result {
        if !self.is_live(osc, log)? {
            return Ok(());
        }
        if self.round.is_asked(tag) {
            return writeln!(log, "note {osc} - repeated_tag {tag}");
        }
        if self.round.tags() == MAX_TAGS {
            return writeln!(log, "note {osc} - tags_full {MAX_TAGS}");
        }
        self.round.ask(osc, tag);
        Ok(())
    }

    fn source(&mut self, osc: u64, tag: u32, lo: i64, hi: i64, log: &mut String) -> fmt::Result {
        if !self.is_live(osc, log)? {
            return Ok(());
        }
        if !self.round.answer(osc, tag, lo, hi) {
            writeln!(log, "note {osc} - unknown_tag {tag}")?;
        }
        Ok(())
    }

    fn adopt(&mut self, osc: u64, required: usize, log: &mut String) -> fmt::Result {
        if !self.is_live(osc, log)? {
            return Ok(());
        }
        let n = self.round.answers.len();
        if n < required {
            writeln!(log, "short {osc} {n} {required}")?;
        } else {
            match self.round.agreed(osc) {
                Some((lo, hi)) => self.use_interval(osc, lo, hi, log)?,
                None => writeln!(log, "split {osc} {n}")?,
            }
        }
        self.round.clear();
        Ok(())
    }

    fn use_interval(&mut self, osc: u64, lo: i64, hi: i64, log: &mut String) -> fmt::Result {
        writeln!(log, "adopted {osc} {} {lo} {hi}", self.round.answers.len())?;
        for answer in self.round.false_ones(lo, hi) {
            writeln!(log, "false {osc} {}", answer.tag)?;
        }
        let next = self.current.changed(osc, lo, hi);
        if next.step != self.current.step {
            writeln!(log, "step {osc} {} {} {}", next.step, self.current.line(osc), next.value)?;
        }
        self.current = next;
        print(&next, log)
    }
}

fn number(field: Option<&str>, max: u64) -> Option<u64> {
    let field = field?;
    if field.starts_with('+') || (field.starts_with('0') && field.len() > 1) {
        return None;
    }
    field.parse().ok().filter(|n| *n <= max)
}

fn is_word(field: Option<&str>) -> Option<()> {
    let field = field?;
    (field.len() == 16 && field.bytes().all(|b| b.is_ascii_hexdigit())).then_some(())
}

fn interval<'a>(lo: Option<&'a str>, fields: &mut impl Iterator<Item = &'a str>) -> Option<(i64, i64)> {
    let lo = number(lo, MAX_COUNT)? as i64;
    let hi = number(fields.next(), MAX_COUNT)? as i64;
    (lo <= hi).then_some((lo, hi))
}

fn start<'a>(fields: &mut impl Iterator<Item = &'a str>) -> Option<Node> {
    let osc = number(fields.next(), MAX_OSC)?;
    let value = number(fields.next(), MAX_COUNT)? as i64;
    let anchor = match fields.next() {
        Some("unknown") => None,
        lo => interval(lo, fields).map(|(lo, hi)| Some(Anchor { osc, lo, hi }))?,
    };
    let current = Record::first(osc, value, anchor);
    Some(Node { current, last_sync: osc, last_read: 0, round: Round::default() })
}

// Takes a line, and puts what it gives into the log. None where the line is refused.
fn take(line: &[u8], node: &mut Option<Node>, log: &mut String) -> Option<()> {
    if line.len() > MAX_LENGTH {
        return None;
    }
    if line.is_empty() || line[0] == b'#' {
        return Some(());
    }
    let mut fields = std::str::from_utf8(line).ok()?.split(' ');
    let word = fields.next()?;
    let Some(node) = node else {
        if word != "start" {
            return None;
        }
        let new = start(&mut fields)?;
        print(&new.current, log).ok()?;
        *node = Some(new);
        return if fields.next().is_none() { Some(()) } else { None };
    };
    let osc = number(fields.next(), MAX_OSC)?;
    match word {
        "tick" => {
            is_word(fields.next())?;
            node.tick(osc, log).ok()?;
        }
        "read" => node.read(osc, log).ok()?,
        "query" => {
            let tag = number(fields.next(), u64::from(u32::MAX))? as u32;
            node.query(osc, tag, log).ok()?;
        }
        "source" => {
            let tag = number(fields.next(), u64::from(u32::MAX))? as u32;
            let (lo, hi) = interval(fields.next(), &mut fields)?;
            node.source(osc, tag, lo, hi, log).ok()?;
        }
        "adopt" => {
            let required = number(fields.next(), MAX_TAGS as u64).filter(|n| *n > 0)? as usize;
            node.adopt(osc, required, log).ok()?;
        }
        _ => return None,
    }
    if fields.next().is_none() { Some(()) } else { None }
}

fn main() -> Result<()> {
    let mut input = BufReader::with_capacity(65_536, stdin().lock());
    // A line that ends with its line feed goes through this writer's buffer by one call at once.
    let mut output = stdout().lock();
    let (mut line, mut log, mut node) = (Vec::new(), String::new(), None);
    while input.read_until(b'\n', &mut line)? > 0 {
        if line.ends_with(b"\n") {
            line.pop();
        }
        log.clear();
        take(&line, &mut node, &mut log).ok_or(Error::from(ErrorKind::InvalidData))?;
        if !log.is_empty() {
            output.write_all(log.as_bytes())?;
        }
        line.clear();
    }
    node.map(|_| ()).ok_or(Error::from(ErrorKind::InvalidData))
}
