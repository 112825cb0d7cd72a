//! The clock and the direct rounds of the plain peers, at the usual rates, in units of 100 ns. Not each peer uses all of it.
#![allow(dead_code)]

const LEASE: u64 = 40_000_000;
const GREATEST_SLEW: i64 = 400_000;
const TOLERANCE: u64 = 6_000_000_000;
const DRIFT_PPM: u64 = 100;
const RESOLUTION: u64 = 1;
const GREATEST_INACCURACY: i64 = (1 << 48) - 2;

fn drift(elapsed: u64) -> u64 {
    elapsed.div_ceil(1_000_000 / DRIFT_PPM)
}

fn most(elapsed: u64) -> i64 {
    (elapsed + drift(elapsed) + RESOLUTION) as i64
}

fn least(elapsed: u64) -> i64 {
    elapsed.saturating_sub(drift(elapsed) + RESOLUTION) as i64
}

fn advance(slew: i64, elapsed: u64) -> i64 {
    elapsed as i64 + (slew * elapsed as i64).div_euclid(LEASE as i64)
}

#[derive(Clone, Copy)]
pub struct Anchor {
    pub osc: u64,
    pub lo: i64,
    pub hi: i64,
}

#[derive(Clone, Copy)]
pub struct Record {
    pub number: u64,
    pub step: u64,
    pub born: u64,
    pub anchor: Option<Anchor>,
    pub from: u64,
    pub value: i64,
    pub slew: i64,
    pub next_from: u64,
    pub next_slew: i64,
}

impl Record {
    pub fn first(osc: u64, value: i64, anchor: Option<Anchor>) -> Record {
        Record { number: 0, step: 0, born: osc, anchor, from: osc, value, slew: 0, next_from: osc, next_slew: 0 }
    }

    pub fn line(&self, osc: u64) -> i64 {
        let first = |osc: u64| self.value + advance(self.slew, osc - self.from);
        if osc < self.next_from {
            first(osc)
        } else {
            first(self.next_from) + advance(self.next_slew, (osc - self.next_from).min(LEASE))
        }
    }

    fn interval(&self, osc: u64) -> Option<(i64, i64)> {
        self.anchor.map(|a| (a.lo + least(osc - a.osc), a.hi + most(osc - a.osc)))
    }

    /// The value and the inaccuracy, which is none where it is unspecified.
    pub fn reading(&self, osc: u64) -> (i64, Option<i64>) {
        let value = self.line(osc);
        let inaccuracy = self.interval(osc).map(|(lo, hi)| (value - lo).max(hi - value).max(0));
        (value, inaccuracy.filter(|i| *i <= GREATEST_INACCURACY))
    }

    fn slew_to_middle(&self, osc: u64, value: i64) -> i64 {
        self.interval(osc).map_or(0, |(lo, hi)| {
            ((lo + hi).div_euclid(2) - value).clamp(-GREATEST_SLEW, GREATEST_SLEW)
        })
    }

    pub fn renewed(&self, osc: u64) -> Option<Record> {
        if osc < self.next_from {
            return None;
        }
        let end = self.next_from + LEASE;
        let at_end = self.line(end);
        let (from, value, slew, next_from) = if osc < end {
            (self.next_from, self.line(self.next_from), self.next_slew, end)
        } else {
            (osc, at_end, 0, osc)
        };
        let next_slew = self.slew_to_middle(next_from, at_end);
        Some(Record { number: self.number + 1, born: osc, from, value, slew, next_from, next_slew, ..*self })
    }

    pub fn changed(&self, osc: u64, lo: i64, hi: i64) -> Record {
        let middle = (lo + hi).div_euclid(2);
        let near = self.anchor.is_some() && middle.abs_diff(self.line(osc)) <= TOLERANCE;
        let anchored = Record { number: self.number + 1, born: osc, anchor: Some(Anchor { osc, lo, hi }), ..*self };
        if near {
            return anchored;
        }
        Record { step: self.step + 1, from: osc, value: middle, slew: 0, next_from: osc, next_slew: 0, ..anchored }
    }
}

pub struct Answer {
    pub tag: u32,
    asked: u64,
    got: u64,
    lo: i64,
    hi: i64,
}

/// A direct round.
#[derive(Default)]
pub struct Round {
    asked: Vec<(u32, u64)>,
    pub answers: Vec<Answer>,
    carried: Vec<(i64, i64)>,
    ends: Vec<(i64, bool)>,
}

impl Round {
    pub fn is_asked(&self, tag: u32) -> bool {
        self.asked.iter().any(|asked| asked.0 == tag)
    }

    pub fn tags(&self) -> usize {
        self.asked.len()
    }

    pub fn ask(&mut self, osc: u64, tag: u32) {
        self.asked.push((tag, osc));
    }

    /// Whether the tag was open, and is answered now.
    pub fn answer(&mut self, osc: u64, tag: u32, lo: i64, hi: i64) -> bool {
        let asked = self.asked.iter().find(|asked| asked.0 == tag);
        let open = asked.filter(|_| self.answers.iter().all(|answer| answer.tag != tag));
        if let Some(&(tag, asked)) = open {
            self.answers.push(Answer { tag, asked, got: osc, lo, hi });
        }
        open.is_some()
    }

    /// From the least to the greatest point that more than half of the intervals hold, carried to this oscillator reading.
    pub fn agreed(&mut self, osc: u64) -> Option<(i64, i64)> {
        self.carried.clear();
        self.carried.extend(self.answers.iter().map(|a| (a.lo + least(osc - a.got), a.hi + most(osc - a.asked))));
        let need = self.carried.len() / 2 + 1;
        self.ends.clear();
        self.ends.extend(self.carried.iter().flat_map(|&(lo, hi)| [(lo, false), (hi, true)]));
        self.ends.sort_unstable();
        let (mut holding, mut from, mut to) = (0, None, None);
        for &(end, is_high) in &self.ends {
            if is_high {
                if holding >= need {
                    to = Some(end);
                }
                holding -= 1;
            } else {
                holding += 1;
                if holding >= need && from.is_none() {
                    from = Some(end);
                }
            }
        }
        from.zip(to)
    }

    /// The answers that have no point in common with the agreed interval.
    pub fn false_ones(&self, lo: i64, hi: i64) -> impl Iterator<Item = &Answer> {
        let apart = move |carried: &(i64, i64)| carried.1 < lo || hi < carried.0;
        self.answers.iter().zip(&self.carried).filter(move |(_, carried)| apart(carried)).map(|(answer, _)| answer)
    }

    pub fn clear(&mut self) {
        self.asked.clear();
        self.answers.clear();
    }
}
