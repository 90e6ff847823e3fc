//! fuzz N SEED: N calls (or, written `20s`, calls for 20 seconds) of the archive on memory that is not sound.
//!
//! Heads are random, nearly good or good; storage holds random numbers, or a set that calls have made with some bits
//! turned; slices are short, exact or long, and lie against a page that may not be touched, before it or after it. It checks
//! that each call returns without a fault (a fault or a call of more than 20 seconds is reported and ends the run with
//! status 1), that it is refused exactly as the header says, that a refused call and a query write nothing, and that an
//! accepted call writes none but the needed numbers. What an accepted call answers here is free and not looked at, but
//! for numbers that can only be 0 or 1, and that a run which a search finds lies in its range. select's n is any number, and none is refused. The audit owes its yes or no on any
//! memory, and is held to a plain one: on the storage as it stands, and with one of its numbers changed for that call.

mod guarded;
mod port;
mod random;
mod rules;

use guarded::*;
use port::*;
use random::Random;

static NOW: Now<Case> = Now::new();

#[derive(Clone, Copy, Debug)]
#[allow(dead_code)]
struct Case {
    seed: u64,
    call: u64,
    head: Head,
    len: usize,
    kind: usize,
    /// A range's start, an index, or select's n.
    start: usize,
    end: usize,
    value: bool,
}

/// Holds the room to what it held, but for the slice's first `free` numbers.
fn hold(case: Case, room: &mut Room<u64>, round: &mut Round<u64>, free: usize) {
    if let Some(what) = round.check(room, 0..free) {
        wrong(case, what);
    }
}

/// The header's rules in their order. `limit` is what the end or index must not go above.
fn refusal(case: &Case, limit: Option<usize>) -> u32 {
    let words = case.head.words;
    if !words.is_power_of_two() || words > 4096 || case.head.len > words * 64 {
        return 2;
    }
    if case.len < needed(words as usize) {
        return 3;
    }
    match limit {
        Some(end) if end > words as usize * 64 => 4,
        _ => 0,
    }
}

fn new_is_exact(case: Case, capacity: usize) {
    let made = unsafe { klado_set_new(capacity) };
    let allowed = capacity.is_power_of_two() && (64..=262144).contains(&capacity);
    let words = if allowed { (capacity / 64) as u32 } else { 0 };
    let head = Head { words, len: 0, allocated: 0 };
    if made.refused != !allowed as u32 || made.value != 0 || made.head != head {
        wrong(case, &format!("new {capacity} gave {made:?}"));
    }
}

/// Calls that change a set: 0 assign, 1 set, 2 clear.
fn change(case: Case, room: &mut Room<u64>, round: &mut Round<u64>) -> Head {
    let storage = unsafe { room.first.add(round.from) };
    let (head, len) = (case.head, case.len);
    let (answer, wanted) = unsafe {
        match case.kind {
            0 => {
                (klado_set_assign(head, storage, len, case.start, case.end, case.value), refusal(&case, Some(case.end)))
            }
            1 => (
                klado_set_set(head, storage, len, case.start, case.value),
                refusal(&case, Some(case.start.saturating_add(1))),
            ),
            _ => (klado_set_clear(head, storage, len), refusal(&case, None)),
        }
    };
    if answer.refused != wanted {
        wrong(case, &format!("refused {} and not {wanted}", answer.refused));
    }
    if answer.refused != 0 && (answer.head != head || answer.value != 0) {
        wrong(case, &format!("a refused call gave {answer:?}"));
    }
    if answer.head.allocated > 1 {
        wrong(case, "the head's flag is neither 0 nor 1");
    }
    let free = if answer.refused == 0 { needed(head.words as usize) } else { 0 };
    hold(case, room, round, free);
    answer.head
}

/// A run that is found lies in the range and has a position, on any memory; where none is, there is no end.
fn run_lies(case: Case, answer: Found) {
    let (at, end) = (answer.at as usize, answer.end as usize);
    let lies = case.start <= at && at < end && end <= case.end;
    if answer.found == 1 && !lies || answer.found == 0 && (at, end) != (0, 0) {
        wrong(case, &format!("a search gave {answer:?}"));
    }
}

/// Queries: 3 get, 4 count, 5 next_one, 6 next_zero, 7 select, 8 capacity, 9 len.
fn query(case: Case, room: &mut Room<u64>, round: &mut Round<u64>) {
    let storage: *const u64 = unsafe { room.first.add(round.from) };
    let (head, len, start, end) = (case.head, case.len, case.start, case.end);
    let head_alone = if refusal(&case, None) == 2 { 2 } else { 0 };
    let plain = |answer: Answer| (answer.refused, answer.value as u64, 0);
    let place = |answer: Place| (answer.refused, answer.at, answer.found);
    let found = |answer: Found| {
        run_lies(case, answer);
        (answer.refused, answer.at, answer.found)
    };
    let ((refused, value, bit), wanted) = unsafe {
        match case.kind {
            3 => {
                let answer = klado_set_get(head, storage, len, start);
                ((answer.refused, 0, answer.value), refusal(&case, Some(start.saturating_add(1))))
            }
            4 => (plain(klado_set_count(head, storage, len, start, end)), refusal(&case, Some(end))),
            5 => (found(klado_set_next_one(head, storage, len, start, end)), refusal(&case, Some(end))),
            6 => (found(klado_set_next_zero(head, storage, len, start, end)), refusal(&case, Some(end))),
            7 => (place(klado_set_select(head, storage, len, start)), refusal(&case, None)),
            8 => (plain(klado_set_capacity(head)), head_alone),
            _ => (plain(klado_set_len(head)), head_alone),
        }
    };
    if refused != wanted {
        wrong(case, &format!("refused {refused} and not {wanted}"));
    }
    if bit > 1 || refused != 0 && (value != 0 || bit != 0) {
        wrong(case, &format!("refused {refused} with {value} and {bit}"));
    }
    let exact = match case.kind {
        8 => head.words as u64 * 64,
        9 => head.len as u64,
        _ => value,
    };
    if refused == 0 && value != exact {
        wrong(case, &format!("a head alone gave {value}"));
    }
    hold(case, room, round, 0);
}

/// Whether the audit said yes, which it must exactly where 01's rules are met.
fn audit_is_exact(case: Case, room: &mut Room<u64>, round: &mut Round<u64>) -> bool {
    let storage: *const u64 = unsafe { room.first.add(round.from) };
    let answer = unsafe { klado_set_audit(case.head, storage, case.len) };
    let wanted = refusal(&case, None);
    let yes = wanted == 0 && rules::sound(case.head, unsafe { std::slice::from_raw_parts(storage, case.len) });
    if (answer.refused, answer.value) != (wanted, yes as u32) {
        wrong(case, &format!("the audit gave {answer:?} and not {wanted}, {yes}"));
    }
    hold(case, room, round, 0);
    yes
}

/// The audit, kind 11. Where it says yes, memories that differ in one number are tried too.
fn audit(case: Case, room: &mut Room<u64>, round: &mut Round<u64>, random: &mut Random) {
    if !audit_is_exact(case, room, round) {
        return;
    }
    for _ in 0..4 {
        // the masks and populations lie behind the words, so look there in half of the cases
        let first = if random.once_in(2) { 0 } else { case.head.words as usize };
        let at = first + random.below(case.len - first);
        let number = room.all()[round.from + at];
        let other = match random.below(4) {
            0 => filling(random),
            1 => number.wrapping_add(1),
            2 => number.wrapping_sub(1),
            _ => number ^ 1 << random.below(64),
        };
        round.put(room, at, other);
        audit_is_exact(case, room, round);
        round.put(room, at, number);
    }
    let more = random.once_in(2);
    let len = if more { case.head.len.wrapping_add(1) } else { case.head.len.wrapping_sub(1) };
    audit_is_exact(Case { head: Head { len, ..case.head }, ..case }, room, round);
}

/// An ordinal for select: about the head's population or below it, small or huge. Those above 2^32 are small in their low
/// half, which alone a shorter number would keep.
fn ordinal(random: &mut Random, population: usize) -> usize {
    match random.below(8) {
        0 => random.next() as usize,
        1 => usize::MAX - random.below(2),
        2 => ((1 + random.below(1 << 16)) << 32) + random.below(population + 2),
        3 => random.below(3),
        4 | 5 => (population + random.below(3)).saturating_sub(1),
        _ => random.below(population + 1),
    }
}

/// One call with its arguments, each kind as often as the others.
fn any_case(random: &mut Random, seed: u64, call: u64, head: Head, len: usize) -> Case {
    let capacity = (head.words as usize).min(1 << 20) * 64;
    let kind = random.below(12);
    let start = if kind == 7 { ordinal(random, head.len as usize) } else { position(random, capacity) };
    let end = position(random, capacity);
    Case { seed, call, head, len, kind, start, end, value: !random.once_in(3) }
}

/// One round: one slice, filled once, and some calls on it. Answers how many.
fn run_round(room: &mut Room<u64>, random: &mut Random, seed: u64, done: u64) -> u64 {
    let words = 1 << if random.once_in(6) { random.below(13) } else { random.below(9) };
    let len = slice_len(random, words);
    let mut round = Round::new(room, random, len, filling);
    // in half of the rounds the set starts as a good one, and its storage is spoilt bit by bit
    let grown = random.once_in(2);
    let mut head = any_head(random, words);
    if grown {
        head = unsafe { klado_set_new(words * 64) }.head;
    }
    let calls = 64 + random.below(256) as u64;
    for call in done..done + calls {
        if !grown {
            head = any_head(random, words);
        } else if random.once_in(16) {
            turn_bits(&mut round, room, random);
        }
        let case = any_case(random, seed, call, head, len);
        NOW.is(case);
        match case.kind {
            0..=2 => {
                let next = change(case, room, &mut round);
                if grown && random.below(8) != 0 {
                    head = next;
                }
            }
            3..=9 => query(case, room, &mut round),
            11 => audit(case, room, &mut round, random),
            _ => new_is_exact(case, if case.value { 1 << random.below(64) } else { case.start }),
        }
    }
    calls
}

fn main() {
    let mut room = Room::new(MOST);
    run(&NOW, |random, seed, done| run_round(&mut room, random, seed, done));
}
