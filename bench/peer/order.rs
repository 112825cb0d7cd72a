//! A plain ordering of the lines of several hosts, for scale beside the proved program. Both read all lines, sort their
//! places, and write them through a buffer of 64 KiB.
mod moment;

use moment::moment;
use std::io::{BufRead, BufReader, BufWriter, Error, ErrorKind, Result, Write, stdin, stdout};
use std::ops::Range;

const MAX_LENGTH: usize = 1024;
const MAX_LINES: usize = 100_000;
const HOSTS: usize = 64;

struct Line {
    octets: Range<usize>,
    ends: Option<(i64, i64)>,
}

fn wrong(number: usize, why: &str) -> Error {
    Error::new(ErrorKind::InvalidData, format!("line {number}: {why}"))
}

fn host_of(field: &[u8]) -> Option<usize> {
    if let [b'0', _, ..] | [b'+', ..] = field {
        return None;
    }
    let host = str::from_utf8(field).ok()?.parse().ok()?;
    (host < HOSTS).then_some(host)
}

fn main() -> Result<()> {
    let mut input = BufReader::with_capacity(65_536, stdin().lock());
    let mut octets = Vec::new();
    let mut lines: Vec<Line> = Vec::new();
    let mut places: Vec<(Option<i64>, usize, usize)> = Vec::new();
    let mut greatest: [Option<i64>; HOSTS] = [None; HOSTS];
    loop {
        let begin = octets.len();
        if input.read_until(b'\n', &mut octets)? == 0 {
            break;
        }
        let number = lines.len() + 1;
        if octets.last() == Some(&b'\n') {
            octets.pop();
        }
        if number > MAX_LINES || octets.len() - begin > MAX_LENGTH {
            return Err(wrong(number, "too many, or too long"));
        }
        let mut fields = octets[begin..].splitn(3, |octet| *octet == b' ');
        let host = fields.next().and_then(host_of).ok_or_else(|| wrong(number, "no host"))?;
        let (time, _, inaccuracy) = fields.next().and_then(moment).ok_or_else(|| wrong(number, "no moment"))?;
        fields.next().ok_or_else(|| wrong(number, "no text"))?;
        let ends = inaccuracy.map(|half| (time - half as i64, time + half as i64));
        if let Some((earliest, latest)) = ends {
            if greatest[host].is_some_and(|point| latest < point) {
                return Err(wrong(number, "earlier than one of its host"));
            }
            greatest[host] = greatest[host].max(Some(earliest));
        }
        places.push((greatest[host], host, number - 1));
        lines.push(Line { octets: begin..octets.len(), ends });
    }
    places.sort_unstable();
    let mut output = BufWriter::with_capacity(65_536, stdout().lock());
    // The greatest latest point of the lines that were written; none where one of them has none.
    let mut reach = Some(i64::MIN);
    for (_, _, place) in places {
        let line = &lines[place];
        output.write_all(mark(reach, line))?;
        output.write_all(&octets[line.octets.clone()])?;
        output.write_all(b"\n")?;
        reach = reach.zip(line.ends).map(|(reach, (_, latest))| reach.max(latest));
    }
    output.flush()
}

// The mark of a line behind those that were written: of the first one it is always the same.
fn mark(reach: Option<i64>, line: &Line) -> &'static [u8] {
    let first = reach == Some(i64::MIN);
    let certain = reach.zip(line.ends).is_some_and(|(reach, (earliest, _))| reach < earliest);
    if first || certain { b"< " } else { b"~ " }
}
