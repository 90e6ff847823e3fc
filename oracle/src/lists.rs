//! lists SEED STDIN STDOUT: makes call lists from a seed and writes them to the file STDIN, and the Rust's own answers
//! to the file STDOUT. The program crate set_replay replays them.
//!
//! The list has one call a line: a letter, then its numbers in decimal, each after one space.
//!
//!     n C      a new set of capacity C; the calls after it are on this set     answer: the capacity
//!     a S E V  assign S..E, V is 1 to set and 0 to clear                       how many positions changed
//!     s I V    set position I                                                  1 where it changed, else 0
//!     g I      get                                                             1 or 0
//!     c S E    count                                                           how many
//!     o S E    next_one                                                        the position, or - for none
//!     z S E    next_zero                                                       the position, or - for none
//!     l        len                                                             how many
//!     k        capacity                                                        the capacity
//!     x        clear                                                           how many positions it cleared
//!
//! The answers are one a line, a number or `-`, as many as there are calls. Every number is below 2^32.
//!
//! A difference that compare writes may end with `p N`, select: the position that has N set ones before it and is set
//! itself. The Rust has no such call, and no list made here has it.
//!
//! For each capacity there are two lists, each on a set of its own: the borders and the reopened blocks, then a long
//! mixed run. After each list the set is looked at: `get` at every position up to capacity 4,096 and at 600 positions
//! above; count and both searches; then the runs of the set, one after another, by searches in turn.

mod calls;
mod judge;
mod original;
mod random;

use calls::{BLOCK, CAPACITIES, Call, Maker, WORD};
use judge::Judge;
use std::fmt::Write;

struct Lists {
    calls: String,
    answers: String,
    number: usize,
}

impl Lists {
    fn put(&mut self, line: impl std::fmt::Display, answer: Option<u64>) {
        writeln!(self.calls, "{line}").unwrap();
        match answer {
            Some(number) => writeln!(self.answers, "{number}").unwrap(),
            None => writeln!(self.answers, "-").unwrap(),
        }
        self.number += 1;
    }

    fn begin(&mut self, capacity: usize) -> Judge {
        let mut judge = Judge::new(capacity);
        self.put(format_args!("n {capacity}"), judge.ask(Call::Capacity));
        judge
    }

    fn ask(&mut self, judge: &mut Judge, call: Call) -> Option<u64> {
        let answer = judge.ask(call);
        self.put(call, answer);
        answer
    }

    fn sweep(&mut self, judge: &mut Judge, maker: &mut Maker, capacity: usize) {
        if capacity <= BLOCK {
            for index in 0..capacity {
                self.ask(judge, Call::Get(index));
            }
        } else {
            for _ in 0..600 {
                self.ask(judge, Call::Get(maker.random.below(capacity)));
            }
        }
        for part in 0..capacity.div_ceil(BLOCK) {
            self.ask(judge, Call::Count(part * BLOCK, ((part + 1) * BLOCK).min(capacity)));
        }
        for _ in 0..100 {
            let (a, b) = (maker.random.below(capacity + 1), maker.random.below(capacity + 1));
            self.ask(judge, Call::Count(a.min(b), a.max(b)));
            self.ask(judge, Call::NextOne(a.min(b), a.max(b)));
            self.ask(judge, Call::NextZero(a.min(b), a.max(b)));
        }
        let mut at = 0;
        for _ in 0..100 {
            let Some(start) = self.ask(judge, Call::NextOne(at, capacity)) else { break };
            let Some(end) = self.ask(judge, Call::NextZero(start as usize, capacity)) else { break };
            at = end as usize;
        }
        self.ask(judge, Call::Len);
    }
}

fn main() {
    let words: Vec<String> = std::env::args().collect();
    let seed = words.get(1).and_then(|word| word.parse().ok());
    let (Some(seed), [_, _, list, answers]) = (seed, &words[..]) else {
        eprintln!("usage: lists SEED STDIN STDOUT");
        std::process::exit(2);
    };
    let mut seeds = random::Random::new(seed);
    let mut lists = Lists { calls: String::new(), answers: String::new(), number: 0 };
    for capacity in CAPACITIES {
        let mut judge = lists.begin(capacity);
        let mut maker = Maker::new(capacity, seeds.next());
        let ends = maker.border_ends((capacity / WORD).div_ceil(64));
        for call in maker.borders(&ends) {
            lists.ask(&mut judge, call);
        }
        let blocks = capacity.div_ceil(BLOCK);
        let turns = blocks.min(4);
        for turn in 0..turns {
            let block = turn * (blocks - 1) / (turns - 1).max(1);
            for call in maker.reopened(block * BLOCK) {
                lists.ask(&mut judge, call);
            }
        }
        lists.sweep(&mut judge, &mut maker, capacity);

        let mut judge = lists.begin(capacity);
        let mut maker = Maker::new(capacity, seeds.next());
        for _ in 0..1500 {
            lists.ask(&mut judge, maker.call());
        }
        lists.sweep(&mut judge, &mut maker, capacity);
    }
    for (path, text) in [(list, &lists.calls), (answers, &lists.answers)] {
        if let Err(error) = std::fs::write(path, text) {
            eprintln!("lists: {path}: {error}");
            std::process::exit(2);
        }
    }
    println!("{} calls, seed {seed}", lists.number);
}
