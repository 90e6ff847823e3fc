//! The program `sheetmark` in Rust over the original set: the same line language, the same refusals and undo journal, with
//! buffered reading and writing. bench/sheetmark times it beside the port.
#[path = "../../oracle/src/original.rs"]
mod original;

use original::RangeBitset;
use std::io::{BufRead, BufReader, BufWriter, Write, stdin, stdout};

enum Command {
    New(u32, u32),
    Assign(u32, u32, bool),
    Count(u32, u32),
    Find(u32, u32, bool),
    Back,
    Wipe,
    Bad,
}

enum Answer {
    Number(u32),
    Nothing,
    Refused(u8),
    BadLine,
}

fn number(text: &[u8]) -> Option<(u32, usize)> {
    let mut value = 0u64;
    let mut at = 0;
    while at < text.len() && at < 10 && text[at].is_ascii_digit() {
        value = value * 10 + (text[at] - b'0') as u64;
        at += 1;
    }
    if at == 0 { None } else { Some((u32::try_from(value).ok()?, at)) }
}

fn two(text: &[u8]) -> Option<(u32, u32)> {
    let (a, mid) = number(text)?;
    if mid >= text.len() || text[mid] != b' ' {
        return None;
    }
    let (b, end) = number(&text[mid + 1..])?;
    if mid + 1 + end == text.len() { Some((a, b)) } else { None }
}

fn parse(line: &[u8]) -> Command {
    let ranged = |n: usize, f: fn(u32, u32) -> Command| two(&line[n..]).map_or(Command::Bad, |(a, b)| f(a, b));
    if line.starts_with(b"mark ") {
        return ranged(5, |a, e| Command::Assign(a, e, true));
    }
    if line.starts_with(b"clear ") {
        return ranged(6, |a, e| Command::Assign(a, e, false));
    }
    if line.starts_with(b"count ") {
        return ranged(6, Command::Count);
    }
    if line.starts_with(b"one ") {
        return ranged(4, |a, e| Command::Find(a, e, true));
    }
    if line.starts_with(b"zero ") {
        return ranged(5, |a, e| Command::Find(a, e, false));
    }
    if line.starts_with(b"new ") {
        return ranged(4, Command::New);
    }
    match line {
        b"back" => Command::Back,
        b"wipe" => Command::Wipe,
        _ => Command::Bad,
    }
}

/// The set and its journal: the runs that each standing call changed, and its closing number.
struct Ledger {
    set: RangeBitset,
    journal: Vec<u32>,
    limit: usize,
}

impl Ledger {
    fn find(&self, from: usize, end: usize, value: bool) -> usize {
        if value { self.set.next_one(from, end) } else { self.set.next_zero(from, end) }.unwrap_or(end)
    }

    /// Recorded while it is searched, in one pass, and cut off again where the journal has no room.
    fn assign(&mut self, start: usize, end: usize, value: bool) -> Answer {
        let used = self.journal.len();
        let mut runs = 0;
        let mut from = start;
        loop {
            let at = self.find(from, end, !value);
            if at >= end {
                break;
            }
            from = self.find(at, end, value);
            if self.journal.len() + 2 > self.limit {
                self.journal.truncate(used);
                return Answer::Refused(6);
            }
            self.journal.push(at as u32);
            self.journal.push(from as u32);
            runs += 1;
        }
        if runs == 0 {
            return Answer::Number(0); // nothing changes: it does not stand
        }
        if self.journal.len() + 1 > self.limit {
            self.journal.truncate(used);
            return Answer::Refused(6);
        }
        self.journal.push(2 * runs + value as u32);
        Answer::Number(self.set.assign(start, end, value))
    }

    fn back(&mut self) -> Answer {
        let Some(last) = self.journal.pop() else {
            return Answer::Refused(5);
        };
        let first = self.journal.len() - 2 * (last / 2) as usize;
        let mut changed = 0;
        for run in self.journal[first..].chunks_exact(2) {
            changed += self.set.assign(run[0] as usize, run[1] as usize, last % 2 == 0);
        }
        self.journal.truncate(first);
        Answer::Number(changed)
    }
}

fn perform(present: &mut Option<Ledger>, command: Command) -> Answer {
    if let Command::New(capacity, limit) = command {
        let words = capacity / 64;
        if capacity % 64 != 0 || words > 4096 || !words.is_power_of_two() || limit > 16384 {
            return Answer::Refused(1);
        }
        let (set, limit) = (RangeBitset::new(capacity as usize), limit as usize);
        *present = Some(Ledger { set, journal: Vec::with_capacity(limit), limit });
        return Answer::Number(0);
    }
    let Some(ledger) = present.as_mut() else {
        return Answer::BadLine;
    };
    let capacity = ledger.set.capacity();
    match command {
        Command::Assign(_, e, _) | Command::Count(_, e) | Command::Find(_, e, _) if e as usize > capacity => Answer::Refused(4),
        Command::Assign(a, e, value) => ledger.assign(a as usize, e as usize, value),
        Command::Count(a, e) => Answer::Number(ledger.set.count(a as usize, e as usize)),
        Command::Find(a, e, value) => {
            let found = if value { ledger.set.next_one(a as usize, e as usize) } else { ledger.set.next_zero(a as usize, e as usize) };
            found.map_or(Answer::Nothing, |i| Answer::Number(i as u32))
        }
        Command::Back => ledger.back(),
        Command::Wipe => {
            let population = ledger.set.len();
            ledger.set.clear();
            ledger.journal.clear();
            Answer::Number(population)
        }
        _ => Answer::BadLine,
    }
}

fn main() {
    let mut input = BufReader::with_capacity(65536, stdin().lock());
    let mut output = BufWriter::with_capacity(65536, stdout().lock());
    let mut line = Vec::new();
    let mut present = None;
    loop {
        line.clear();
        if input.read_until(b'\n', &mut line).unwrap() == 0 {
            break;
        }
        if line.last() == Some(&b'\n') {
            line.pop();
        }
        match perform(&mut present, parse(&line)) {
            Answer::Number(n) => writeln!(output, "{n}"),
            Answer::Nothing => writeln!(output, "none"),
            Answer::Refused(k) => writeln!(output, "refused {k}"),
            Answer::BadLine => writeln!(output, "bad line"),
        }
        .unwrap();
    }
}
