//! What the drivers share: lent slices that are held to what they held, two values that must be the same, and what a lent storage says of
//! its set.

use crate::guarded::*;
use crate::port::*;
use crate::random::Random;
use std::fmt::Debug;
use std::ops::Range;

/// A lent slice, with what it held before the call.
pub struct Lent<'a, T> {
    name: &'static str,
    pub room: &'a mut Room<T>,
    pub round: Round<T>,
}

impl<'a, T: Copy + PartialEq> Lent<'a, T> {
    pub fn new(
        name: &'static str,
        room: &'a mut Room<T>,
        random: &mut Random,
        len: usize,
        filling: impl Fn(&mut Random) -> T,
    ) -> Self {
        let round = Round::new(room, random, len, filling);
        Lent { name, room, round }
    }

    pub fn first(&self) -> *mut T {
        unsafe { self.room.first.add(self.round.from) }
    }

    pub fn len(&self) -> usize {
        self.round.len
    }

    pub fn numbers(&mut self) -> &mut [T] {
        let (from, len) = (self.round.from, self.round.len);
        &mut self.room.all()[from..from + len]
    }

    pub fn put(&mut self, at: usize, number: T) {
        self.round.put(self.room, at, number);
    }

    /// Holds the slice and its margins to what they held, but for the `free` numbers.
    pub fn hold(&mut self, free: Range<usize>, case: impl Debug) {
        let none = free.is_empty();
        if let Some(what) = self.round.check(self.room, free) {
            let what = if none { "a number was written, and none was free" } else { what };
            wrong(case, &format!("{}: {what}", self.name));
        }
    }
}

pub fn same<T: PartialEq + Debug>(case: impl Debug, what: &str, got: T, wanted: T) {
    if got != wanted {
        wrong(case, &format!("{what} {got:?} and not {wanted:?}"));
    }
}

/// Whether a head is none: 01's refusal 2.
#[allow(dead_code)]
pub fn bad(head: Head) -> bool {
    !head.words.is_power_of_two() || head.words > 4096 || head.len > 64 * head.words
}

/// The set's positions, by `get`.
#[allow(dead_code)]
pub fn positions(storage: &Lent<u64>, head: Head) -> Vec<bool> {
    let get = |at| unsafe { klado_set_get(head, storage.first(), storage.len(), at) };
    (0..64 * head.words as usize).map(|at| get(at).value == 1).collect()
}

#[allow(dead_code)]
pub fn sound(storage: &Lent<u64>, head: Head) -> bool {
    unsafe { klado_set_audit(head, storage.first(), storage.len()) }.value == 1
}

/// One side on memory that is not sound: random numbers, or a set that some ranges make. Answers its head.
#[allow(dead_code)]
pub fn any_side<'a>(
    name: &'static str,
    room: &'a mut Room<u64>,
    random: &mut Random,
    words: usize,
) -> (Head, Lent<'a, u64>) {
    let len = slice_len(random, words);
    let mut storage = Lent::new(name, room, random, len, filling);
    if random.once_in(3) {
        return (any_head(random, words), storage);
    }
    let mut head = unsafe { klado_set_new(64 * words) }.head;
    for _ in 0..random.below(12) {
        let (start, end) = (position(random, 64 * words), position(random, 64 * words));
        let answer = unsafe { klado_set_assign(head, storage.first(), len, start, end, !random.once_in(3)) };
        head = answer.head;
    }
    storage.hold(0..needed(words).min(len), head);
    (head, storage)
}

#[allow(dead_code)]
pub fn is_sound(case: impl Debug, storage: &Lent<u64>, head: Head) {
    let audit = unsafe { klado_set_audit(head, storage.first(), storage.len()) };
    same(case, "the audit gave", (audit.refused, audit.value), (0, 1));
}
