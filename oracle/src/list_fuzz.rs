//! list_fuzz N SEED: N calls (or, written `20s`, calls for 20 seconds) of the writer of saved lists, and of open on what it
//! wrote, in rounds of three kinds.
//!
//! On memory that is not sound: heads are random, nearly good or good; storage holds random numbers, or a set that calls have made
//! with some bits turned; the buffer has 0 bytes or more. It checks that each call returns without a fault, that 2 and 3 are
//! refused exactly and in this order, and 9 where the buffer is under 11 bytes and not where it has 11 + 4 * capacity; that a
//! refused call writes nothing and answers 0, and an accepted one answers a list's length that fits; that bytes from that length
//! on and the storage are as they were. Where the audit calls such memory sound, the set is read by `get`, and the
//! bytes must be that set's.
//!
//! On sets that calls made: the whole buffer is held to a plain writer, which was written from 01's format alone, in buffers as long
//! as the list, a byte shorter, a byte longer and others. What was written is then opened, with J and the slices on
//! both sides of their limits: it is refused 1 or 3 for those alone; else capacity, positions, population, flag and U are
//! compared, and the opened set is written again.
//!
//! On files, good ones and some damaged: of each that open accepts, the opened set's list is the file again, byte for byte.
//!
//! Every slice lies against a page that may not be touched, before it or after it.

mod files;
mod guarded;
mod ledger_port;
mod lent;
mod made_set;
mod memory;
mod port;
mod random;
mod saved_list;

use files::*;
use guarded::*;
use ledger_port::*;
use lent::*;
use made_set::{Made, any_capacity};
use memory::*;
use port::*;
use random::Random;
use saved_list::*;

/// The longest buffer.
const LONGEST: usize = 11 + 4 * 262144 + 5000;

#[derive(Clone, Copy, Debug, PartialEq)]
enum Kind {
    Write,
    Open,
}
use Kind::*;

static NOW: Now<Case> = Now::new();

/// A call. `file_len` is the buffer's length or the file's; `limit` is J.
#[derive(Clone, Copy, Debug)]
#[allow(dead_code)]
struct Case {
    seed: u64,
    call: u64,
    round: &'static str,
    kind: Kind,
    head: Head,
    storage_len: usize,
    file_len: usize,
    limit: usize,
    journal_len: usize,
}

impl Case {
    fn new(seed: u64, call: u64, round: &'static str) -> Self {
        let head = Head { words: 0, len: 0, allocated: 0 };
        Case { seed, call, round, kind: Write, head, storage_len: 0, file_len: 0, limit: 0, journal_len: 0 }
    }

    /// The round's next call, a writing.
    fn write(&mut self, head: Head, storage: &Lent<u64>, file: &Lent<u8>) -> Case {
        self.call += 1;
        Case { call: self.call - 1, head, storage_len: storage.len(), file_len: file.len(), ..*self }
    }

    /// The round's next call, an opening.
    fn open(&mut self, memory: &Memory, file_len: usize, limit: usize) -> Case {
        self.call += 1;
        let (storage_len, journal_len) = (memory.storage.len(), memory.journal.len());
        Case { call: self.call - 1, kind: Open, storage_len, file_len, limit, journal_len, ..*self }
    }
}

struct Desk {
    storage: Room<u64>,
    buffer: Room<u8>,
    opened: Rooms,
}

fn buffer<'a>(room: &'a mut Room<u8>, random: &mut Random, len: usize) -> Lent<'a, u8> {
    Lent::new("buffer", room, random, len, |random| random.next() as u8)
}

/// The header's rules in their order, 9 only where no list fits.
fn refusal(case: &Case) -> u32 {
    if bad(case.head) {
        return 2;
    }
    let capacity = 64 * case.head.words as usize;
    if case.storage_len < storage_needed(capacity) {
        return 3;
    }
    if case.file_len < 11 { 9 } else { 0 }
}

/// A call of the writer, and what holds on any memory.
fn write(case: Case, storage: &mut Lent<u64>, file: &mut Lent<u8>) -> Answer {
    NOW.is(case);
    let answer = unsafe { klado_list_write(case.head, storage.first(), case.storage_len, file.first(), case.file_len) };
    let wanted = refusal(&case);
    // there is no set to count runs by, but a set has at most capacity / 2: 9 is free only where so many may not fit
    let fits = case.file_len >= 11 + 4 * 64 * case.head.words as usize;
    let free = wanted == 0 && answer.refused == 9 && !fits;
    if answer.refused != wanted && !free {
        wrong(case, &format!("refused {} and not {wanted}", answer.refused));
    }
    let value = answer.value as usize;
    if answer.refused != 0 && value != 0 {
        wrong(case, &format!("a refused call gave {answer:?}"));
    }
    if answer.refused == 0 && (value < 11 || value > case.file_len || (value - 11) % 8 != 0) {
        wrong(case, &format!("the length is {value}"));
    }
    storage.hold(0..0, case);
    file.hold(0..value, case);
    answer
}

/// A call of the writer on a sound set whose list is `list`.
fn write_list(case: Case, storage: &mut Lent<u64>, file: &mut Lent<u8>, list: &[u8]) {
    let answer = write(case, storage, file);
    let (refused, length) = if list.len() <= case.file_len { (0, list.len()) } else { (9, 0) };
    same(case, "the writer gave", (answer.refused, answer.value as usize), (refused, length));
    for (at, (got, wanted)) in file.numbers()[..length].iter().zip(list).enumerate() {
        if got != wanted {
            wrong(case, &format!("byte {at} of the list is {got} and not {wanted}"));
        }
    }
}

/// The plain writer. A run starts at a position that the set has where it lacks the one before, and ends likewise.
fn list_of(has: &[bool]) -> Vec<u8> {
    let capacity = has.len();
    let starts = (0..capacity).filter(|&at| has[at] && (at == 0 || !has[at - 1]));
    let ends = (1..=capacity).filter(|&at| has[at - 1] && (at == capacity || !has[at]));
    let runs: Vec<(u32, u32)> = starts.zip(ends).map(|(start, end)| (start as u32, end as u32)).collect();
    saved((capacity / 64) as u16, &runs)
}

/// A head with one field changed.
fn near_head(random: &mut Random, head: Head) -> Head {
    match random.below(5) {
        0 => Head { allocated: head.allocated ^ 1, ..head },
        1 => Head { len: head.len.wrapping_add(1), ..head },
        2 => Head { len: head.len.wrapping_sub(1), ..head },
        3 => Head { words: head.words.wrapping_mul(2), ..head },
        _ => Head { words: head.words / 2, ..head },
    }
}

/// A buffer's length for any memory.
fn any_length(random: &mut Random, capacity: usize) -> usize {
    let most = 11 + 4 * capacity;
    match random.below(8) {
        0..=2 => random.below(31),
        3 => 11 + 8 * random.below(12) + random.below(3) - 1,
        4 | 5 => most + random.below(3) - 1,
        6 => most + random.below(500),
        _ => random.below(most + 1),
    }
}

/// Puts every other position into a set, unless its storage is short. Answers the head after it.
fn every_other(mut head: Head, storage: &mut Lent<u64>, capacity: usize) -> Head {
    for at in (0..capacity).step_by(2) {
        head = unsafe { klado_set_set(head, storage.first(), storage.len(), at, true) }.head;
    }
    storage.hold(0..storage_needed(capacity).min(storage.len()), head);
    head
}

/// Changes the set on memory that may not be sound. Answers the head after it.
fn grow(head: Head, storage: &mut Lent<u64>, random: &mut Random, capacity: usize) -> Head {
    let start = random.below(capacity);
    let end = if random.once_in(8) { position(random, capacity) } else { start + random.below(70) };
    let answer = unsafe { klado_set_assign(head, storage.first(), storage.len(), start, end, !random.once_in(3)) };
    storage.hold(0..if answer.refused == 0 { needed(head.words as usize) } else { 0 }, head);
    answer.head
}

/// A storage number of random bits or, for many runs, of every other bit.
fn any_number(random: &mut Random, many: bool) -> u64 {
    match random.below(4) {
        0 | 1 if many => u64::MAX / 3,
        2 if many => u64::MAX / 3 * 2,
        _ => filling(random),
    }
}

/// A round on memory that is not sound, mostly. Answers how many calls.
fn loose_round(desk: &mut Desk, random: &mut Random, seed: u64, done: u64) -> u64 {
    let words = 1 << if random.once_in(24) { random.below(13) } else { random.below(8) };
    let capacity = 64 * words;
    let storage_len = slice_len(random, words);
    let many = random.once_in(4);
    let number = |random: &mut Random| any_number(random, many);
    let mut storage = Lent::new("storage", &mut desk.storage, random, storage_len, number);
    let mut case = Case::new(seed, done, "not sound");
    // in half of the rounds the set starts as a good one, and its storage is spoilt bit by bit
    let grown = random.once_in(2);
    let mut head = unsafe { klado_set_new(capacity) }.head;
    if grown && many {
        head = every_other(head, &mut storage, capacity);
    }
    for _ in 0..16 + random.below(64) {
        if random.once_in(12) {
            turn_bits(&mut storage.round, storage.room, random);
        }
        if grown && random.once_in(2) {
            head = grow(head, &mut storage, random, capacity);
        }
        let lent = match random.below(8) {
            0 => near_head(random, head),
            1..=5 if grown => head,
            _ => any_head(random, words),
        };
        let len = any_length(random, capacity);
        let mut file = buffer(&mut desk.buffer, random, len);
        let next = case.write(lent, &storage, &file);
        let audit = unsafe { klado_set_audit(lent, storage.first(), storage_len) };
        if audit.value == 1 && lent.words <= 128 {
            let list = list_of(&positions(&storage, lent));
            write_list(next, &mut storage, &mut file, &list);
        } else {
            write(next, &mut storage, &mut file);
        }
    }
    case.call - done
}

/// Opens a list with J and slices on both sides of their limits. Gives the call, its memory and what it answered.
fn open_list<'a>(
    rooms: &'a mut Rooms,
    case: &mut Case,
    random: &mut Random,
    list: &[u8],
    capacity: usize,
) -> (Case, Memory<'a>, Opened) {
    let storage_len = slice_len(random, capacity / 64);
    let small = random.below(41);
    let limit = if random.once_in(6) { any_limit(random, small) } else { small };
    let longest = limit.min(LONGEST_JOURNAL + 1);
    let journal_len = match random.below(8) {
        0 => longest.saturating_sub(1),
        1 => longest + random.below(500),
        _ => longest,
    };
    let mut memory = Memory::new(rooms, random, storage_len, journal_len, capacity);
    let next = case.open(&memory, list.len(), limit);
    NOW.is(next);
    let answer = open(next, &mut memory, random, list, limit);
    (next, memory, answer)
}

/// Opens what was written, and compares it with the set's positions. Where it is accepted, writes it again, into `room`.
fn reopen(rooms: &mut Rooms, room: &mut Room<u8>, case: &mut Case, random: &mut Random, has: &[bool], list: &[u8]) {
    let capacity = has.len();
    let (next, mut memory, opened) = open_list(rooms, case, random, list, capacity);
    let short = next.storage_len < storage_needed(capacity) || next.journal_len < next.limit;
    let refused = if next.limit > LONGEST_JOURNAL { 1 } else { 3 * short as u32 };
    same(next, "opening what was written was refused", opened.refused, refused);
    if refused != 0 {
        return;
    }
    let population = has.iter().filter(|has| **has).count() as u32;
    same(next, "the head is", opened.head, ledger(capacity / 64, population, population > 0, next.limit, 0));
    if positions(&memory.storage, opened.head.set) != has {
        wrong(next, "opened, the set has other positions");
    }
    let len = list.len() + random.below(3) - 1;
    let mut file = buffer(room, random, len);
    let next = case.write(opened.head.set, &memory.storage, &file);
    write_list(next, &mut memory.storage, &mut file, list);
}

/// A round on a set that calls make. Answers how many calls.
fn made_round(desk: &mut Desk, random: &mut Random, seed: u64, done: u64) -> u64 {
    let capacity = any_capacity(random);
    let mut made = Made::new(&mut desk.storage, random, capacity);
    let mut case = Case::new(seed, done, "made by calls");
    if !random.once_in(4) {
        made.change(random);
    }
    for _ in 0..1 + random.below(6) {
        let list = list_of(&made.has);
        let exact = list.len();
        for len in [exact, exact - 1, exact + 1, random.below(exact), exact + random.below(5000)] {
            let mut file = buffer(&mut desk.buffer, random, len);
            let next = case.write(made.head, &made.storage, &file);
            write_list(next, &mut made.storage, &mut file, &list);
        }
        reopen(&mut desk.opened, &mut desk.buffer, &mut case, random, &made.has, &list);
        made.change(random);
    }
    case.call - done
}

/// A round of files that are opened and written again. Answers how many calls.
fn file_round(desk: &mut Desk, random: &mut Random, seed: u64, done: u64) -> u64 {
    let capacity = any_capacity(random);
    let words = capacity / 64;
    let mut case = Case::new(seed, done, "files");
    for _ in 0..8 {
        let most = [1, 3, 12, 40, 300, capacity][random.below(6)];
        let reach = any_reach(random);
        let bytes = if random.once_in(4) {
            any_file(random, words)
        } else {
            saved(words as u16, &any_runs(random, capacity, most, reach))
        };
        let (_, mut memory, opened) = open_list(&mut desk.opened, &mut case, random, &bytes, capacity);
        if opened.refused != 0 {
            continue;
        }
        let len = bytes.len() + if random.once_in(2) { random.below(5000) } else { 0 };
        let mut file = buffer(&mut desk.buffer, random, len);
        let next = case.write(opened.head.set, &memory.storage, &file);
        write_list(next, &mut memory.storage, &mut file, &bytes);
    }
    case.call - done
}

fn main() {
    let mut desk = Desk { storage: Room::new(MOST), buffer: Room::new(LONGEST), opened: Rooms::new() };
    run(&NOW, |random, seed, done| {
        let round = [loose_round, made_round, file_round][random.below(3)];
        round(&mut desk, random, seed, done)
    });
}
