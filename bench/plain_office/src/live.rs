//! The plain desk behind a pipe: requests a line, what it records appended to a file with one fdatasync for up to 64 lines, and
//! then the answer to each line and each ACKNOW.
use crate::Desk;
use std::collections::BTreeSet;
use std::fmt::Write as _;
use std::fs::File;
use std::io::{stdin, stdout, BufRead, Result, Write};

const BATCH: usize = 64;

struct Live {
    desk: Desk,
    /// Of each portfolio and gas day.
    contracts: BTreeSet<(String, String)>,
    facts: usize,
    lines: usize,
    /// What this batch adds to the file, answers and lets out.
    added: Vec<u8>,
    answers: String,
    packets: String,
}

impl Live {
    fn recorded(&mut self, line: &[u8]) {
        self.facts += 1;
        self.added.extend_from_slice(line);
        let _ = writeln!(self.answers, "{{\"answer\":\"recorded\",\"fact\":{},\"line\":{}}}", self.facts, self.lines);
    }

    fn refused(&mut self, name: &str) {
        let _ = writeln!(self.answers, "{{\"answer\":\"refused\",\"line\":{},\"name\":\"{name}\"}}", self.lines);
    }

    fn contract(&mut self, line: &[u8]) -> Option<()> {
        let words: Vec<_> = std::str::from_utf8(line).ok()?.split_ascii_whitespace().collect();
        let [_, portfolio, day, "IM" | "MI", firm, interruptible] = words[..] else {
            return None;
        };
        let (_, _) = (firm.parse::<u64>().ok()?, interruptible.parse::<u64>().ok()?);
        self.contracts.insert((portfolio.into(), day.into()));
        self.recorded(line);
        Some(())
    }

    fn submit(&mut self, line: &[u8], body: &[u8]) {
        let answer = self.desk.judge(body);
        let taken = self.desk.facts.last().filter(|_| answer.starts_with("Recorded")).cloned();
        match taken {
            Some(it) if self.contracts.contains(&(it.portfolio.clone(), it.day.clone())) => {
                self.recorded(line);
                let (n, day, point, portfolio, version) = (self.facts, it.day, it.point, it.portfolio, it.version);
                let _ = writeln!(self.packets, "{{\"fact\":{n},\"message\":{{\"day\":\"{day}\",\"kind\":\"ACKNOW\",\"point\":\"{point}\",\"portfolio\":\"{portfolio}\",\"version\":{version}}},\"to\":\"{portfolio}\"}}");
            }
            Some(_) => self.refused("UnknownPortfolio"),
            None => self.refused(&answer),
        }
    }

    fn take(&mut self, line: &[u8]) {
        self.lines += 1;
        if let Some(body) = line.strip_prefix(b"submit ") {
            self.submit(line, body);
        } else if self.contract(line).is_none() {
            self.refused("Unreadable");
        }
    }

    /// Nothing is said before it stands in the file.
    fn end_batch(&mut self, file: &mut File) -> Result<()> {
        file.write_all(&self.added)?;
        file.sync_data()?;
        let mut out = stdout().lock();
        out.write_all(self.answers.as_bytes())?;
        out.write_all(self.packets.as_bytes())?;
        self.added.clear();
        self.answers.clear();
        self.packets.clear();
        out.flush()
    }
}

pub fn run(path: &str) -> Result<()> {
    let mut file = File::create(path)?;
    let desk = Desk { point: "BORDER-1".into(), ..Desk::default() };
    let (added, answers, packets) = (Vec::new(), String::new(), String::new());
    let mut live = Live { desk, contracts: BTreeSet::new(), facts: 0, lines: 0, added, answers, packets };
    let (mut input, mut line) = (stdin().lock(), Vec::new());
    while input.read_until(b'\n', &mut line)? > 0 {
        live.take(&line);
        line.clear();
        if live.lines % BATCH == 0 {
            live.end_batch(&mut file)?;
        }
    }
    live.end_batch(&mut file)
}
