//! A plain drill, for scale beside the proved program: makes the capture of a seed, runs it through a clock at the usual
//! rates, and writes one line that counts what the log would say.
mod clock;

use clock::{Anchor, Record, Round};
use std::io::{Error, ErrorKind, Result, Write, stdout};

const MAX_EVENTS: u32 = 1_000_000;
const MULTIPLIER: u64 = 6_364_136_223_846_793_005;
const INCREMENT: u64 = 1_442_695_040_888_963_407;
const MOST_ASKED: u32 = 32;
const LEAST_ANSWERED: u32 = 3;
const START_VALUE: i64 = 1_000_000_000;
const START_ERROR: i64 = 1_000_000;
const FALSE_BY: i64 = 10_000_000_000;

enum Event {
    Tick,
    Read,
    Query(u32),
    Source(u32, i64, i64),
    Adopt,
}

struct Maker {
    word: u64,
    osc: u64,
    next_tag: u32,
    asked: u32,
    answered: u32,
}

impl Maker {
    fn draw(&mut self, below: u64) -> u64 {
        self.word = self.word.wrapping_mul(MULTIPLIER).wrapping_add(INCREMENT);
        (self.word >> 33) % below
    }

    fn next_event(&mut self) -> Event {
        self.osc += self.draw(2_000_000);
        match self.draw(8) {
            0 | 1 => Event::Tick,
            4 | 5 if self.asked < MOST_ASKED => {
                self.next_tag += 1;
                self.asked += 1;
                Event::Query(self.next_tag - 1)
            }
            7 if self.answered >= LEAST_ANSWERED => {
                (self.asked, self.answered) = (0, 0);
                Event::Adopt
            }
            6 | 7 if self.answered < self.asked => self.source(),
            _ => Event::Read,
        }
    }

    fn source(&mut self) -> Event {
        let tag = self.next_tag - self.asked + self.answered;
        self.answered += 1;
        let error = 1_000 + self.draw(100_000) as i64;
        let wrong = if self.draw(8) == 0 { FALSE_BY } else { 0 };
        let time = START_VALUE + self.osc as i64 + wrong;
        Event::Source(tag, time - error, time + error)
    }
}

#[derive(Default)]
struct Counts {
    records: u64,
    steps: u64,
    readings: u64,
    unspecified: u64,
    adopted: u64,
    split: u64,
    short: u64,
    false_sources: u64,
}

struct Node {
    current: Record,
    round: Round,
    counts: Counts,
}

impl Node {
    // No event of a drill is regressed, since its oscillator never goes back, and each of its tags is asked once and answered
    // while it is open.
    fn take(&mut self, osc: u64, event: Event) {
        match event {
            Event::Tick => {
                if let Some(next) = self.current.renewed(osc) {
                    self.publish(next);
                }
            }
            Event::Read => {
                self.counts.readings += 1;
                if self.current.reading(osc).1.is_none() {
                    self.counts.unspecified += 1;
                }
            }
            Event::Query(tag) => self.round.ask(osc, tag),
            Event::Source(tag, lo, hi) => {
                self.round.answer(osc, tag, lo, hi);
            }
            Event::Adopt => self.adopt(osc),
        }
    }

    fn adopt(&mut self, osc: u64) {
        if self.round.answers.len() < LEAST_ANSWERED as usize {
            self.counts.short += 1;
        } else if let Some((lo, hi)) = self.round.agreed(osc) {
            self.counts.adopted += 1;
            self.counts.false_sources += self.round.false_ones(lo, hi).count() as u64;
            let next = self.current.changed(osc, lo, hi);
            self.counts.steps += next.step - self.current.step;
            self.publish(next);
        } else {
            self.counts.split += 1;
        }
        self.round.clear();
    }

    fn publish(&mut self, record: Record) {
        self.counts.records += 1;
        self.current = record;
    }
}

fn summary(seed: u32, events: u32) -> String {
    let anchor = Anchor { osc: 0, lo: START_VALUE - START_ERROR, hi: START_VALUE + START_ERROR };
    let current = Record::first(0, START_VALUE, Some(anchor));
    let counts = Counts { records: 1, ..Counts::default() };
    let mut node = Node { current, round: Round::default(), counts };
    let mut maker = Maker { word: u64::from(seed), osc: 0, next_tag: 0, asked: 0, answered: 0 };
    for _ in 0..events {
        let event = maker.next_event();
        node.take(maker.osc, event);
    }
    let Counts { records, steps, readings, unspecified, adopted, split, short, false_sources } = node.counts;
    format!(
        "drill seed {seed} events {events} records {records} steps {steps} readings {readings} \
         unspecified {unspecified} adopted {adopted} split {split} short {short} false {false_sources}\n"
    )
}

fn main() -> Result<()> {
    let mut words = std::env::args().skip(1).map(|word| word.parse().ok());
    match (words.next().flatten(), words.next().flatten(), words.next()) {
        (Some(seed), Some(events), None) if events <= MAX_EVENTS => {
            stdout().lock().write_all(summary(seed, events).as_bytes())
        }
        _ => Err(Error::from(ErrorKind::InvalidInput)),
    }
}
