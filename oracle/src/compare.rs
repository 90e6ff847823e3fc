//! compare N SEED [FROM]: N calls (or, written `20s`, calls for 20 seconds) on the Rust and on the port, every answer compared.
//!
//! The calls come in lists, each on a fresh set; list K's calls depend on SEED and K alone, and FROM skips to list FROM.
//! Beside the answers it compares the head: population, word count, and the flag, which is set from the first setting
//! over at least one position on. The port's storage starts with random numbers, so nothing stale may be believed, and
//! the numbers past the needed ones must stay. After each list the whole set is swept: the runs of the set one after
//! another by both searches, `get`, and counts.
//!
//! The Rust's searches give a position, where the run starts that the port finds. The run's end is held to the Rust's other search from
//! there, and to a walk over the Rust's `get`: a whole one, the rarer the longer the run is, and else over the two positions at the end.
//!
//! The Rust has no select, so its judge is a walk over the Rust's `get` from position 0. A walk costs the capacity: it
//! comes on the fresh set, after some of the list's calls, and after the list, always the rarer the larger the set is,
//! and many ordinals are asked by it. In every sweep select is asked for an end of each run, too.
//!
//! At the first difference it prints the call and both answers, writes the list so far to target/oracle/difference (in the
//! format of lists.rs), and ends with status 1.

mod calls;
mod judge;
mod ordinals;
mod original;
mod port;
mod random;

use calls::{BLOCK, CAPACITIES, Call, Maker, WORD};
use judge::Judge;
use ordinals::ordinals;
use port::*;
use random::Random;
use std::time::{Duration, Instant};

/// What one call of the port gave: refused, or the answer, none where a search found nothing.
type Given = Result<Option<u64>, u32>;

struct Port {
    head: Head,
    storage: Vec<u64>,
    needed: usize,
    past: Vec<u64>,
    /// Where the run ends that the last search found.
    end: usize,
}

impl Port {
    fn new(capacity: usize, random: &mut Random) -> Self {
        let needed = needed(capacity / WORD);
        let storage: Vec<u64> = (0..needed + random.below(4)).map(|_| random.next()).collect();
        let past = storage[needed..].to_vec();
        let made = unsafe { klado_set_new(capacity) };
        assert!(made.refused == 0, "new {capacity} refused {}", made.refused);
        Port { head: made.head, storage, needed, past, end: 0 }
    }

    fn changed(&mut self, answer: SetAnswer) -> Given {
        self.head = answer.head;
        told(answer.refused, Some(answer.value.into()))
    }

    /// A search's answer: its start, and the end kept. Where nothing is found all are zeros. Any other answer is none of the header's,
    /// and told as a refusal that there is not.
    fn run(&mut self, answer: Found) -> Given {
        self.end = answer.end as usize;
        match (answer.found, answer.at, answer.end) {
            (0, 0, 0) => told(answer.refused, None),
            (1, at, _) => told(answer.refused, Some(at)),
            _ => Err(u32::MAX),
        }
    }

    fn ask(&mut self, call: Call) -> Given {
        let (head, storage, len) = (self.head, self.storage.as_mut_ptr(), self.storage.len());
        unsafe {
            match call {
                Call::Assign(start, end, value) => {
                    self.changed(klado_set_assign(head, storage, len, start, end, value))
                }
                Call::Set(index, value) => self.changed(klado_set_set(head, storage, len, index, value)),
                Call::Clear => self.changed(klado_set_clear(head, storage, len)),
                Call::Get(index) => number(klado_set_get(head, storage, len, index)),
                Call::Count(start, end) => number(klado_set_count(head, storage, len, start, end)),
                Call::NextOne(start, end) => self.run(klado_set_next_one(head, storage, len, start, end)),
                Call::NextZero(start, end) => self.run(klado_set_next_zero(head, storage, len, start, end)),
                Call::Select(n) => place(klado_set_select(head, storage, len, n)),
                Call::Len => number(klado_set_len(head)),
                Call::Capacity => number(klado_set_capacity(head)),
            }
        }
    }
}

fn told(refused: u32, answer: Option<u64>) -> Given {
    if refused == 0 { Ok(answer) } else { Err(refused) }
}

fn number(answer: Answer) -> Given {
    told(answer.refused, Some(answer.value.into()))
}

/// The position, or two zeros, likewise.
fn place(answer: Place) -> Given {
    match (answer.found, answer.at) {
        (0, 0) => told(answer.refused, None),
        (1, at) => told(answer.refused, Some(at)),
        _ => Err(u32::MAX),
    }
}

/// How many calls a list makes up to the next walk, which costs the capacity.
fn calls_to_walk(capacity: usize, random: &mut Random) -> usize {
    1 + random.below(2 * capacity + 1000)
}

struct List {
    number: u64,
    seed: u64,
    capacity: usize,
    judge: Judge,
    port: Port,
    allocated: bool,
    past: Vec<Call>,
    made: u64,
    /// For when and what select is asked: the other calls do not depend on it.
    random: Random,
    /// How many calls there are to the next walk.
    rest: usize,
}

impl List {
    fn new(seed: u64, number: u64) -> (Self, Maker) {
        let mut random = Random::new(seed ^ number.wrapping_mul(0xD134_2543_DE82_EF95));
        let capacity = CAPACITIES[random.below(CAPACITIES.len())];
        let port = Port::new(capacity, &mut random);
        let maker = Maker::new(capacity, random.next());
        let rest = calls_to_walk(capacity, &mut random);
        let list = List {
            number,
            seed,
            capacity,
            judge: Judge::new(capacity),
            port,
            allocated: false,
            past: Vec::new(),
            made: 0,
            random,
            rest,
        };
        (list, maker)
    }

    /// The Rust's answer, after the port's was compared with it.
    fn ask(&mut self, call: Call) -> Option<u64> {
        let wanted = self.judge.ask(call);
        self.hold(call, wanted);
        wanted
    }

    /// Compares the port's answer with one that is known.
    fn hold(&mut self, call: Call, wanted: Option<u64>) {
        let given = self.port.ask(call);
        self.made += 1;
        if given != Ok(wanted) {
            self.past.push(call);
            self.differ(&format!("{call}: the Rust gives {wanted:?}, the port {given:?}"));
        }
        let end = match (call, wanted) {
            (Call::NextOne(_, end), Some(start)) => self.run_end(start as usize, end, true),
            (Call::NextZero(_, end), Some(start)) => self.run_end(start as usize, end, false),
            _ => return,
        };
        if self.port.end != end {
            self.past.push(call);
            self.differ(&format!("{call}: the run should end at {end}, and the port's ends at {}", self.port.end));
        }
    }

    /// Where the run of the value ends that starts at `start`: by the Rust's other search, which the walk must agree with.
    fn run_end(&mut self, start: usize, end: usize, value: bool) -> usize {
        let other = if value { Call::NextZero(start, end) } else { Call::NextOne(start, end) };
        let to = self.judge.ask(other).map_or(end, |at| at as usize);
        let from = if self.random.once_in(1 + (to - start) / 8) { start } else { to - 1 };
        if self.judge.walk(from, end, value) != to {
            self.differ(&format!("the Rust's run {start}..{to} of {value} is none by the Rust's get"));
        }
        to
    }

    /// Asks select for many ordinals, or all, by one walk over the set.
    fn select(&mut self, all: bool) {
        let ones = self.judge.ones();
        let before = self.port.storage.clone();
        let mut asked = ordinals(&ones, self.capacity, &mut self.random);
        if all {
            asked.extend(0..ones.len());
        }
        for n in asked {
            self.hold(Call::Select(n), ones.get(n).copied());
        }
        if self.port.storage != before {
            self.differ("select wrote into the storage");
        }
    }

    /// A call of the list itself, which is kept; the head is compared too.
    fn change(&mut self, call: Call) {
        self.ask(call);
        self.past.push(call);
        self.allocated |= match call {
            Call::Assign(start, end, value) => value && start < end,
            Call::Set(_, value) => value,
            _ => false,
        };
        let wanted = Head {
            words: (self.capacity / WORD) as u32,
            len: self.judge.ask(Call::Len).unwrap_or(0) as u32,
            allocated: self.allocated.into(),
        };
        if self.port.head != wanted {
            self.differ(&format!("{call}: the head should be {wanted:?}, the port's is {:?}", self.port.head));
        }
        // few walks would come just after a clear by themselves
        let cleared = matches!(call, Call::Clear) && self.random.once_in(self.capacity.div_ceil(256));
        self.rest -= 1;
        if self.rest == 0 || cleared {
            self.select(false);
            self.rest = calls_to_walk(self.capacity, &mut self.random);
        }
    }

    fn sweep(&mut self, random: &mut Random) {
        let capacity = self.capacity;
        self.ask(Call::Len);
        self.ask(Call::Capacity);
        self.runs();
        if capacity <= 2 * WORD {
            self.every_range();
        } else if capacity <= BLOCK || random.once_in(16) {
            self.every_position();
        } else {
            for word in 0..capacity / WORD {
                self.ask(Call::Get(word * WORD + random.below(WORD)));
            }
        }
        for block in 0..capacity.div_ceil(BLOCK) {
            self.ask(Call::Count(block * BLOCK, ((block + 1) * BLOCK).min(capacity)));
        }
        for _ in 0..200 {
            let (a, b) = (random.below(capacity + 1), random.below(capacity + 1));
            self.look(a.min(b), a.max(b));
        }
        if self.random.once_in(capacity.div_ceil(4 * BLOCK)) {
            self.select(capacity <= BLOCK);
        }
        if self.port.storage[self.port.needed..] != self.port.past[..] {
            self.differ("a number past the needed ones was written");
        }
    }

    /// The runs of the set. Select is asked for the first or the last position of each: as many are before it as the runs so
    /// far have.
    fn runs(&mut self) {
        let (mut at, mut before) = (0, 0);
        while let Some(start) = self.ask(Call::NextOne(at, self.capacity)) {
            let next = self.ask(Call::NextZero(start as usize, self.capacity));
            let end = next.unwrap_or(self.capacity as u64);
            let up_to = before + (end - start) as usize;
            if self.random.once_in(2) {
                self.hold(Call::Select(before), Some(start));
            } else {
                self.hold(Call::Select(up_to - 1), Some(end - 1));
            }
            if next.is_none() {
                break;
            }
            self.ask(Call::Count(at, end as usize));
            (at, before) = (end as usize, up_to);
        }
    }

    fn look(&mut self, start: usize, end: usize) {
        self.ask(Call::Count(start, end));
        self.ask(Call::NextOne(start, end));
        self.ask(Call::NextZero(start, end));
    }

    fn every_range(&mut self) {
        for start in 0..=self.capacity {
            for end in start..=self.capacity {
                self.look(start, end);
            }
        }
        for index in 0..self.capacity {
            self.ask(Call::Get(index));
        }
    }

    fn every_position(&mut self) {
        for index in 0..self.capacity {
            self.ask(Call::Get(index));
            self.look(index, self.capacity);
            self.ask(Call::Count(0, index));
        }
    }

    fn differ(&self, what: &str) -> ! {
        let list = format!("capacity {}, list {} of seed {}", self.capacity, self.number, self.seed);
        println!("compare: DIFFERENT at call {} of {list}\n  {what}", self.made);
        let lines: Vec<String> = self.past.iter().map(|call| format!("{call}\n")).collect();
        let file = std::env::var("ORACLE_DIFFERENCE").unwrap_or_else(|_| "target/oracle/difference".into());
        if std::fs::write(&file, format!("n {}\n{}", self.capacity, lines.concat())).is_ok() {
            println!("  the list so far: {file}; again: compare 1 {} {}", self.seed, self.number);
        }
        std::process::exit(1);
    }
}

/// Runs one list and its sweep. Answers how many calls that were, and how many of them the list's own.
fn run_list(seed: u64, number: u64) -> (u64, u64) {
    let (mut list, mut maker) = List::new(seed, number);
    if list.random.once_in(list.capacity.div_ceil(BLOCK)) {
        list.select(false);
    }
    if maker.random.once_in(8) {
        let step = 1 + maker.random.below(8);
        let ends = maker.border_ends(step);
        for call in maker.borders(&ends) {
            list.change(call);
        }
    }
    for _ in 0..100 << maker.random.below(10) {
        let call = maker.call();
        list.change(call);
    }
    let own = list.made;
    list.sweep(&mut maker.random);
    (list.made, own)
}

fn main() {
    let words: Vec<String> = std::env::args().skip(1).collect();
    let number = |at: usize| words.get(at).and_then(|word| word.parse::<u64>().ok());
    let seconds = words.first().and_then(|word| word.strip_suffix('s')).and_then(|word| word.parse().ok());
    let (Some(seed), true) = (number(1), number(0).is_some() || seconds.is_some()) else {
        eprintln!("usage: compare N SEED [FROM], N calls or, as 20s, seconds");
        std::process::exit(2);
    };
    let most = number(0).unwrap_or(u64::MAX);
    let time = Duration::from_secs(seconds.unwrap_or(u64::MAX));
    let begun = Instant::now();
    let first = number(2).unwrap_or(0);
    let (mut made, mut own, mut list) = (0, 0, first);
    while made < most && begun.elapsed() < time {
        let (calls, of_list) = run_list(seed, list);
        made += calls;
        own += of_list;
        list += 1;
    }
    println!(
        "compare: the same, {made} calls ({own} in {} lists, the rest in sweeps), seed {seed}, {:.1} s",
        list - first,
        begun.elapsed().as_secs_f64()
    );
}
