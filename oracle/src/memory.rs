//! What the drivers of the ledger's archive share: the storage and journal of a round, and open, which is held to its whole promise.

use crate::guarded::*;
use crate::ledger_port::*;
use crate::lent::*;
use crate::port::*;
use crate::random::Random;
use crate::saved_list::*;
use std::fmt::Debug;

/// Where storage, journal and file of the rounds lie.
pub struct Rooms {
    storage: Room<u64>,
    journal: Room<u32>,
    file: Room<u8>,
}

impl Rooms {
    pub fn new() -> Self {
        Rooms { storage: Room::new(MOST), journal: Room::new(LONGEST_JOURNAL + 600), file: Room::new(11 + 4 * 262144) }
    }
}

/// Storage and journal of one round.
pub struct Memory<'a> {
    pub storage: Lent<'a, u64>,
    pub journal: Lent<'a, u32>,
    file: &'a mut Room<u8>,
}

impl<'a> Memory<'a> {
    pub fn new(
        rooms: &'a mut Rooms,
        random: &mut Random,
        storage_len: usize,
        journal_len: usize,
        capacity: usize,
    ) -> Self {
        let storage = Lent::new("storage", &mut rooms.storage, random, storage_len, filling);
        let journal =
            Lent::new("journal", &mut rooms.journal, random, journal_len, |random| journal_number(random, capacity));
        Memory { storage, journal, file: &mut rooms.file }
    }
}

/// A position, a closing number of few runs, or anything.
pub fn journal_number(random: &mut Random, capacity: usize) -> u32 {
    match random.below(8) {
        0 => random.next() as u32,
        1 => u32::MAX - random.below(2) as u32,
        2..=4 => random.below(12) as u32,
        _ => random.below(capacity + 2) as u32,
    }
}

/// A journal's length J, allowed or not.
pub fn any_limit(random: &mut Random, limit: usize) -> usize {
    match random.below(12) {
        0 => random.next() as usize >> random.below(64),
        1 => LONGEST_JOURNAL + random.below(3) - 1,
        2 => limit + 1,
        3 => random.below(limit + 1),
        _ => limit,
    }
}

pub fn ledger(words: usize, len: u32, begun: bool, limit: usize, used: usize) -> Ledger {
    Ledger { set: Head { words: words as u32, len, allocated: begun as u8 }, journal: limit as u32, used: used as u32 }
}

/// Open, held to its whole promise: it is owed on any memory.
pub fn open(case: impl Debug + Copy, memory: &mut Memory, random: &mut Random, bytes: &[u8], limit: usize) -> Opened {
    let mut file = Lent::new("file", memory.file, random, bytes.len(), |random| random.next() as u8);
    for (at, byte) in bytes.iter().enumerate() {
        file.put(at, *byte);
    }
    let (storage, journal) = (&memory.storage, &memory.journal);
    let (storage_len, journal_len) = (storage.len(), journal.len());
    let opened = unsafe {
        klado_ledger_open(file.first(), bytes.len(), limit, storage.first(), storage_len, journal.first(), journal_len)
    };
    let (refused, run, head) = match opening(bytes, limit, storage_len, journal_len) {
        Ok((capacity, runs)) => {
            let population = runs.iter().map(|run| run.1 - run.0).sum();
            (0, 0, ledger(capacity / 64, population, !runs.is_empty(), limit, 0))
        }
        Err((refused, run)) => (refused, run, ledger(0, 0, false, 0, 0)),
    };
    same(case, "open gave", opened, Opened { refused, run, head });
    memory.storage.hold(0..if refused == 0 { needed(head.set.words as usize) } else { 0 }, case);
    memory.journal.hold(0..0, case);
    file.hold(0..0, case);
    if refused == 0 {
        is_sound(case, &memory.storage, head.set);
    }
    opened
}
