//! combine_fuzz N SEED: N calls (or, written `20s`, calls for 20 seconds) of klado_set_both, klado_set_either and
//! klado_set_without, in rounds of two kinds.
//!
//! On memory that is not sound: the two heads are random, nearly good or good; the storages hold random numbers, or sets that calls
//! have made with some bits turned; the four slices are short, exact or long. It checks that each call returns without a fault, that
//! it is refused exactly as 02 says and in its order (2, 3, 10, 11), that a refused call writes nothing and answers a head of zeros,
//! and that an accepted one writes the third storage's needed numbers and the scratch's first W alone, and answers a head of W words
//! with its flag set. Where the audit calls both memories sound, the two sets are read by `get`, and the third is held to them.
//!
//! On sets that calls made: every answer is held to a plain model, written from 02 alone: two arrays of positions, and the rule on
//! each position. The second set is now and then made like the first, or as its complement, so that words and blocks become empty
//! and full that were neither; and the third storage keeps what the call before left there. The head, `get` at every position and
//! the audit of the third, the port's and a plain one, are compared.
//!
//! Every slice lies against a page that may not be touched, before it or after it.

mod guarded;
mod lent;
mod made_set;
mod port;
mod random;
mod rules;

use guarded::*;
use lent::*;
use made_set::{Made, any_capacity};
use port::*;
use random::Random;

/// A rule: the export, and what it makes of one position.
struct Rule {
    name: &'static str,
    call: Combine,
    has: fn(bool, bool) -> bool,
}

static RULES: [Rule; 3] = [
    Rule { name: "both", call: klado_set_both, has: |first, second| first && second },
    Rule { name: "either", call: klado_set_either, has: |first, second| first || second },
    Rule { name: "without", call: klado_set_without, has: |first, second| first && !second },
];

static NOW: Now<Case> = Now::new();

/// A call. The lengths are those of the two storages, the third and the scratch.
#[derive(Clone, Copy, Debug)]
#[allow(dead_code)]
struct Case {
    seed: u64,
    call: u64,
    round: &'static str,
    rule: &'static str,
    first: Head,
    second: Head,
    lens: [usize; 4],
}

/// Where the four slices of a round lie.
struct Rooms {
    first: Room<u64>,
    second: Room<u64>,
    third: Room<u64>,
    scratch: Room<u64>,
}

/// What a call writes to.
struct Target<'a> {
    third: Lent<'a, u64>,
    scratch: Lent<'a, u64>,
}

/// 02's refusals in their order.
fn refusal(case: &Case) -> u32 {
    let (first, second) = (case.first, case.second);
    if bad(first) || bad(second) {
        return 2;
    }
    let (words, others) = (first.words as usize, second.words as usize);
    let [first_len, second_len, third_len, scratch_len] = case.lens;
    if first_len < needed(words) || second_len < needed(others) || third_len < needed(words) {
        return 3;
    }
    if words != others {
        return 10;
    }
    11 * (scratch_len < words) as u32
}

/// A call, and what holds on any memory. Answers the third's head where it is accepted.
fn combine(case: Case, rule: &Rule, first: &mut Lent<u64>, second: &mut Lent<u64>, target: &mut Target) -> Option<Head> {
    NOW.is(case);
    let [first_len, second_len, third_len, scratch_len] = case.lens;
    let answer = unsafe {
        let (from, beside) = (first.first(), second.first());
        let (third, scratch) = (target.third.first(), target.scratch.first());
        (rule.call)(case.first, from, first_len, case.second, beside, second_len, third, third_len, scratch, scratch_len)
    };
    same(case, "refused", answer.refused, refusal(&case));
    let accepted = answer.refused == 0;
    let (words, begun) = if accepted { (case.first.words, 1) } else { (0, 0) };
    let len = if accepted { answer.head.len } else { 0 };
    same(case, "the head is", (answer.value, answer.head), (0, Head { words, len, allocated: begun }));
    first.hold(0..0, case);
    second.hold(0..0, case);
    target.third.hold(0..if accepted { needed(words as usize) } else { 0 }, case);
    target.scratch.hold(0..words as usize, case);
    accepted.then_some(answer.head)
}

/// The third is the plain combination of the two, and sound.
fn is_combined(case: Case, rule: &Rule, first: &[bool], second: &[bool], third: &mut Lent<u64>, head: Head) {
    let wanted: Vec<bool> = first.iter().zip(second).map(|(&first, &second)| (rule.has)(first, second)).collect();
    let population = wanted.iter().filter(|has| **has).count();
    same(case, "the population is", head.len as usize, population);
    let got = positions(third, head);
    if let Some(at) = (0..wanted.len()).find(|&at| got[at] != wanted[at]) {
        wrong(case, &format!("position {at} is {}", got[at]));
    }
    is_sound(case, third, head);
    same(case, "by 01's rules the third is sound:", rules::sound(head, third.numbers()), true);
}

fn lens(first: &Lent<u64>, second: &Lent<u64>, target: &Target) -> [usize; 4] {
    [first.len(), second.len(), target.third.len(), target.scratch.len()]
}

fn scratch_len(random: &mut Random, words: usize) -> usize {
    match random.below(8) {
        0 => random.below(words),
        1 => words - 1,
        2 | 3 => words + random.below(100),
        _ => words,
    }
}

/// A round on memory that is not sound, mostly. Answers how many calls.
fn loose_round(rooms: &mut Rooms, random: &mut Random, seed: u64, done: u64) -> u64 {
    let words = 1 << if random.once_in(24) { random.below(13) } else { random.below(8) };
    let others = if random.once_in(8) { 1 << random.below(13) } else { words };
    let (mut head, mut first) = any_side("the first", &mut rooms.first, random, words);
    let (mut beside, mut second) = any_side("the second", &mut rooms.second, random, others);
    let third_len = slice_len(random, words);
    let third = Lent::new("the third", &mut rooms.third, random, third_len, filling);
    let len = scratch_len(random, words);
    let scratch = Lent::new("the scratch", &mut rooms.scratch, random, len, filling);
    let mut target = Target { third, scratch };
    let calls = 8 + random.below(32) as u64;
    for call in done..done + calls {
        match random.below(12) {
            0 => turn_bits(&mut first.round, first.room, random),
            1 => turn_bits(&mut second.round, second.room, random),
            2 => head = any_head(random, words),
            3 => beside = any_head(random, others),
            // the third may hold anything
            4 | 5 if third_len > 0 => target.third.put(random.below(third_len), filling(random)),
            _ => {}
        }
        let rule = &RULES[random.below(3)];
        let lens = lens(&first, &second, &target);
        let case = Case { seed, call, round: "not sound", rule: rule.name, first: head, second: beside, lens };
        let answer = combine(case, rule, &mut first, &mut second, &mut target);
        if let Some(answer) = answer.filter(|_| words <= 128 && sound(&first, head) && sound(&second, beside)) {
            let (has, other) = (positions(&first, head), positions(&second, beside));
            is_combined(case, rule, &has, &other, &mut target.third, answer);
        }
    }
    calls
}

/// Gives `second` the positions of `first`, or those that `first` has not.
fn echo(first: &Made, second: &mut Made, alike: bool) {
    let capacity = first.has.len().min(second.has.len());
    let mut start = 0;
    while start < capacity {
        let value = first.has[start];
        let end = (start..capacity).find(|&at| first.has[at] != value).unwrap_or(capacity);
        second.assign(start, end, value == alike);
        start = end;
    }
    second.storage.hold(0..needed(second.has.len() / 64), second.head);
}

/// A round on sets that calls make. Answers how many calls.
fn made_round(rooms: &mut Rooms, random: &mut Random, seed: u64, done: u64) -> u64 {
    let capacity = any_capacity(random);
    let other = if random.once_in(10) { any_capacity(random) } else { capacity };
    let mut first = Made::new(&mut rooms.first, random, capacity);
    let mut second = Made::new(&mut rooms.second, random, other);
    let third_len = slice_len(random, capacity / 64);
    let third = Lent::new("the third", &mut rooms.third, random, third_len, filling);
    let len = scratch_len(random, capacity / 64);
    let scratch = Lent::new("the scratch", &mut rooms.scratch, random, len, filling);
    let mut target = Target { third, scratch };
    let mut call = done;
    for _ in 0..1 + random.below(6) {
        for rule in &RULES {
            let lens = lens(&first.storage, &second.storage, &target);
            let case = Case { seed, call, round: "made by calls", rule: rule.name, first: first.head, second: second.head, lens };
            if let Some(head) = combine(case, rule, &mut first.storage, &mut second.storage, &mut target) {
                is_combined(case, rule, &first.has, &second.has, &mut target.third, head);
            }
            call += 1;
        }
        match random.below(5) {
            0 => second.change(random),
            1 => echo(&first, &mut second, random.once_in(2)),
            2 => {
                echo(&first, &mut second, random.once_in(2));
                second.change(random);
            }
            _ => first.change(random),
        }
    }
    call - done
}

fn main() {
    let room = || Room::new(MOST);
    let mut rooms = Rooms { first: room(), second: room(), third: room(), scratch: room() };
    run(&NOW, |random, seed, done| {
        let round = [loose_round, made_round][random.below(2)];
        round(&mut rooms, random, seed, done)
    });
}
