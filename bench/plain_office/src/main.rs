//! What a Rust programmer would write for an office with std's maps and one Mutex, and no proof: threads that submit nominations to
//! it. plain_office THREADS DOCUMENTS prints how many microseconds all submissions took; plain_office live FILE takes requests from
//! standard input.
mod live;
mod reader;

use reader::Reader;
use std::collections::BTreeMap;
use std::sync::Mutex;
use std::time::Instant;

#[derive(Clone, Copy, PartialEq, Eq)]
enum Direction {
    IM,
    MI,
}

#[derive(Clone, PartialEq)]
struct Line {
    counterparty: String,
    direction: Direction,
    hours: Vec<u64>,
}

#[derive(Clone)]
struct Nomint {
    day: String,
    lines: Vec<Line>,
    point: String,
    portfolio: String,
    version: u32,
}

fn direction(reader: &mut Reader) -> Option<Direction> {
    match reader.text()? {
        "IM" => Some(Direction::IM),
        "MI" => Some(Direction::MI),
        _ => None,
    }
}

fn line(reader: &mut Reader) -> Option<Line> {
    let (mut counterparty, mut towards, mut hours) = (None, None, None);
    reader.fields(|key, value| {
        match key {
            "counterparty" => counterparty = Some(value.text()?.to_string()),
            "direction" => towards = Some(direction(value)?),
            "hours" => hours = Some(value.items(Reader::number)?),
            _ => return None,
        }
        Some(())
    })?;
    Some(Line { counterparty: counterparty?, direction: towards?, hours: hours? })
}

fn nomint(bytes: &[u8]) -> Option<Nomint> {
    let mut reader = Reader::of(bytes);
    let (mut day, mut lines, mut point, mut portfolio, mut version) = (None, None, None, None, None);
    reader.fields(|key, value| {
        match key {
            "kind" => (value.text()? == "NOMINT").then_some(())?,
            "day" => day = Some(value.text()?.to_string()),
            "lines" => lines = Some(value.items(line)?),
            "point" => point = Some(value.text()?.to_string()),
            "portfolio" => portfolio = Some(value.text()?.to_string()),
            "version" => version = Some(u32::try_from(value.number()?).ok()?),
            _ => return None,
        }
        Some(())
    })?;
    reader.is_at_end().then_some(())?;
    Some(Nomint { day: day?, lines: lines?, point: point?, portfolio: portfolio?, version: version? })
}

/// What the lock keeps: the documents in force by portfolio and day, all facts, and the journal of all calls.
#[derive(Default)]
struct Desk {
    point: String,
    in_force: BTreeMap<(String, String), (u32, Nomint)>,
    facts: Vec<Nomint>,
    journal: Vec<(usize, Vec<u8>, String)>,
}

impl Desk {
    fn submit(&mut self, seat: usize, body: Vec<u8>) -> String {
        let answer = self.judge(&body);
        self.journal.push((seat, body, answer.clone()));
        answer
    }

    /// Takes a document, as the desk does: by its point, its number of hours, its lines, and its version.
    fn judge(&mut self, body: &[u8]) -> String {
        let Some(document) = nomint(body) else {
            return "Message".into();
        };
        if document.point != self.point {
            return "WrongPoint".into();
        }
        if document.lines.iter().any(|line| line.hours.len() != 24) {
            return "HourCount".into();
        }
        if document.lines.len() > 64 {
            return "TooManyLines".into();
        }
        let is_twin = |a: &Line, b: &Line| a.counterparty == b.counterparty && a.direction == b.direction;
        let has_twin = |i: usize| document.lines[..i].iter().any(|line| is_twin(line, &document.lines[i]));
        if (0..document.lines.len()).any(has_twin) {
            return "DuplicateLine".into();
        }
        let key = (document.portfolio.clone(), document.day.clone());
        if let Some((n, held)) = self.in_force.get(&key) {
            if document.version < held.version {
                return format!("Stale {}", held.version);
            }
            if document.version == held.version {
                return if document.lines == held.lines { format!("Repeat {n}") } else { format!("Conflict {n}") };
            }
        }
        self.facts.push(document.clone());
        let n = self.facts.len() as u32;
        self.in_force.insert(key, (n, document));
        format!("Recorded {n}")
    }
}

/// The documents of a portfolio, with rising versions and 8 lines of 24 hours each.
fn documents(portfolio: &str, count: usize) -> Vec<Vec<u8>> {
    let hours = ["10"; 24].join(",");
    let line = |k: usize| format!("{{\"counterparty\":\"C{k}\",\"direction\":\"IM\",\"hours\":[{hours}]}}");
    let lines = (1..9).map(line).collect::<Vec<_>>().join(",");
    let text = |version| {
        format!("{{\"kind\":\"NOMINT\",\"point\":\"BORDER-1\",\"portfolio\":\"{portfolio}\",\"day\":\"2026-01-15\",\"version\":{version},\"lines\":[{lines}]}}")
    };
    (1..count + 1).map(|version| text(version).into_bytes()).collect()
}

fn main() {
    let words: Vec<String> = std::env::args().skip(1).collect();
    if words[0] == "live" {
        return live::run(&words[1]).unwrap();
    }
    let words: Vec<usize> = words.iter().map(|word| word.parse().unwrap()).collect();
    let (threads, count) = (words[0], words[1]);
    let all: Vec<_> = (0..threads).map(|seat| documents(&format!("P{}", seat + 1), count)).collect();
    let desk = Mutex::new(Desk { point: "BORDER-1".into(), ..Desk::default() });
    let start = Instant::now();
    std::thread::scope(|scope| {
        for (seat, bodies) in all.into_iter().enumerate() {
            let desk = &desk;
            scope.spawn(move || {
                for body in bodies {
                    assert!(desk.lock().unwrap().submit(seat, body).starts_with("Recorded"));
                }
            });
        }
    });
    println!("{}", start.elapsed().as_micros());
    assert_eq!(desk.lock().unwrap().facts.len(), threads * count);
}
