//! ledger_fuzz N SEED: N calls (or, written `20s`, calls for 20 seconds) of the ledger's archive, in rounds of two kinds.
//!
//! On memory that is not sound, as fuzz does for the set: heads are random, nearly good or good; storage and journal hold
//! random numbers, or a ledger that calls have made with some numbers spoilt; files are random or damaged; every slice is
//! short, exact or long and lies against a page that may not be touched. It checks that each call returns without a fault,
//! that it is refused exactly as the header says (but for 6 where the call may need more than J - U numbers or not), that a refused call
//! writes nothing and gives its head back, that an accepted call keeps W and J, leaves U within J, and writes none but the
//! needed storage numbers and the journal numbers from the old U to the new. New and open are held to all that they promise,
//! on any memory.
//!
//! On sound ledgers: lists of calls from new or from open, on slices that hold random numbers at first, many of which change nothing,
//! also with a full journal. Every answer, head and journal up to U is held to the plain machine of ledger_model.rs, and so are the
//! set's queries and the audit, now and then and at the end of each list.

mod files;
mod guarded;
mod ledger_model;
mod ledger_port;
mod lent;
mod memory;
mod port;
mod random;
mod saved_list;
mod ways;

use files::*;
use guarded::*;
use ledger_model::*;
use ledger_port::*;
use lent::*;
use memory::*;
use port::*;
use random::Random;
use saved_list::*;
use ways::Ways;

#[derive(Clone, Copy, Debug, PartialEq)]
enum Kind {
    New,
    Open,
    Mark,
    Clear,
    MarkPoint,
    ClearPoint,
    TakeBack,
    Wipe,
}
use Kind::*;

impl Kind {
    fn assigns(self) -> bool {
        matches!(self, Mark | Clear | MarkPoint | ClearPoint)
    }
}

static NOW: Now<Case> = Now::new();

/// A call. For new, `start` and `end` are capacity and J; for open, the file's length and J; for a point, `start` is its index.
#[derive(Clone, Copy, Debug)]
#[allow(dead_code)]
struct Case {
    seed: u64,
    call: u64,
    sound: bool,
    kind: Kind,
    head: Ledger,
    storage_len: usize,
    journal_len: usize,
    start: usize,
    end: usize,
}

/// New, held to its whole promise: it is owed on any memory.
fn make_new(case: Case, memory: &mut Memory) -> Opened {
    NOW.is(case);
    let (storage, journal, capacity, limit) = (&memory.storage, &memory.journal, case.start, case.end);
    let opened = unsafe {
        klado_ledger_new(capacity, limit, storage.first(), case.storage_len, journal.first(), case.journal_len)
    };
    let refused = new_refusal(capacity, limit, case.storage_len, case.journal_len);
    let head = if refused == 0 { ledger(capacity / 64, 0, false, limit, 0) } else { ledger(0, 0, false, 0, 0) };
    same(case, "new gave", opened, Opened { refused, run: 0, head });
    memory.storage.hold(0..0, case);
    memory.journal.hold(0..0, case);
    opened
}

/// Open, likewise.
fn make_open(case: Case, memory: &mut Memory, random: &mut Random, bytes: &[u8]) -> Opened {
    NOW.is(case);
    open(case, memory, random, bytes, case.end)
}

/// A call of a ledger, and what holds on any memory but for the refusal's number.
fn perform(case: Case, memory: &mut Memory) -> LedgerAnswer {
    NOW.is(case);
    let (head, storage, journal) = (case.head, memory.storage.first(), memory.journal.first());
    let (storage_len, journal_len, start, end) = (case.storage_len, case.journal_len, case.start, case.end);
    let answer = unsafe {
        match case.kind {
            Mark => klado_ledger_mark(head, storage, storage_len, journal, journal_len, start, end),
            Clear => klado_ledger_clear(head, storage, storage_len, journal, journal_len, start, end),
            MarkPoint => klado_ledger_mark_point(head, storage, storage_len, journal, journal_len, start),
            ClearPoint => klado_ledger_clear_point(head, storage, storage_len, journal, journal_len, start),
            TakeBack => klado_ledger_take_back(head, storage, storage_len, journal, journal_len),
            _ => klado_ledger_wipe(head, storage, storage_len),
        }
    };
    if answer.refused != 0 && (answer.head != head || answer.value != 0) {
        wrong(case, &format!("a refused call gave {answer:?}"));
    }
    if answer.head.set.allocated > 1 {
        wrong(case, "the head's flag is neither 0 nor 1");
    }
    if (answer.head.set.words, answer.head.journal) != (head.set.words, head.journal) {
        wrong(case, &format!("W or J changed: {:?}", answer.head));
    }
    let accepted = answer.refused == 0;
    if accepted && answer.head.used > answer.head.journal {
        wrong(case, &format!("U is above J: {:?}", answer.head));
    }
    memory.storage.hold(0..if accepted { needed(head.set.words as usize) } else { 0 }, case);
    let (old, new) = (head.used as usize, answer.head.used as usize);
    let writes = accepted && case.kind.assigns() && old < new;
    memory.journal.hold(if writes { old..new } else { 0..0 }, case);
    answer
}

/// The header's rules in their order, but for 6.
fn refusal(case: &Case) -> u32 {
    let (head, kind) = (case.head, case.kind);
    let (words, limit) = (head.set.words as usize, head.journal as usize);
    let capacity = 64 * words;
    if !allowed(capacity) || head.set.len as usize > capacity || limit > LONGEST_JOURNAL || head.used > head.journal {
        return 2;
    }
    if case.storage_len < storage_needed(capacity) || kind != Wipe && case.journal_len < limit {
        return 3;
    }
    match kind {
        Mark | Clear if case.end > capacity => 4,
        MarkPoint | ClearPoint if case.start >= capacity => 4,
        TakeBack if head.used == 0 => 5,
        _ => 0,
    }
}

/// How many journal numbers a call that changes so many runs needs.
fn numbers_for(runs: usize) -> usize {
    if runs == 0 { 0 } else { 1 + 2 * runs }
}

/// The least and the most journal numbers that a marking or clearing can need. There is no set to count runs by, but n positions have
/// at most (n + 1) / 2; and a head with the flag clear that counts nothing has nothing, whatever the storage holds.
fn needs(case: &Case) -> (usize, usize) {
    let positions = if matches!(case.kind, Mark | Clear) { case.end.saturating_sub(case.start) } else { 1 };
    if case.head.set.allocated == 0 && case.head.set.len == 0 {
        let runs = matches!(case.kind, Mark | MarkPoint) && positions > 0;
        return (numbers_for(runs as usize), numbers_for(runs as usize));
    }
    (0, numbers_for(positions.div_ceil(2)))
}

/// A call on memory that is not sound. Answers the head after it.
fn loose_call(case: Case, memory: &mut Memory) -> Ledger {
    let answer = perform(case, memory);
    let wanted = refusal(&case);
    let right = match answer.refused {
        _ if wanted != 0 || !case.kind.assigns() => answer.refused == wanted,
        0 => needs(&case).0 <= (case.head.journal - case.head.used) as usize,
        6 => needs(&case).1 > (case.head.journal - case.head.used) as usize,
        _ => false,
    };
    if !right {
        wrong(case, &format!("refused {}, of the table {wanted}", answer.refused));
    }
    answer.head
}

fn any_ledger(random: &mut Random, words: usize, limit: usize) -> Ledger {
    let journal = any_limit(random, limit) as u32;
    let used = match random.below(12) {
        0 => random.next() as u32 >> random.below(32),
        1 => journal.wrapping_add(1),
        2 => 0,
        3 | 4 => journal,
        5 => journal.wrapping_sub(random.below(6) as u32),
        _ => random.below(journal as usize + 1) as u32,
    };
    Ledger { set: any_head(random, words), journal, used }
}

/// A round on memory that is not sound. Answers how many calls.
fn loose_round(rooms: &mut Rooms, random: &mut Random, seed: u64, done: u64) -> u64 {
    let words = 1 << if random.once_in(6) { random.below(13) } else { random.below(9) };
    let limit = if random.once_in(12) { random.below(LONGEST_JOURNAL + 1) } else { random.below(41) };
    let storage_len = slice_len(random, words);
    let journal_len = match random.below(8) {
        0 => random.below(limit + 1),
        1 => limit.saturating_sub(1),
        2 => limit + random.below(500),
        _ => limit,
    };
    let capacity = 64 * words;
    let mut memory = Memory::new(rooms, random, storage_len, journal_len, capacity);
    // in half of the rounds the ledger starts as a good one, and its numbers are spoilt by and by
    let grown = random.once_in(2);
    let mut head = ledger(words, 0, false, limit, 0);
    let calls = 64 + random.below(256) as u64;
    for call in done..done + calls {
        if random.once_in(16) {
            turn_bits(&mut memory.storage.round, memory.storage.room, random);
        }
        if random.once_in(8) && journal_len > 0 {
            // the last standing call's numbers are read next
            let near = (head.used as usize).clamp(1, journal_len);
            let at = if random.once_in(3) { random.below(journal_len) } else { near - 1 - random.below(near.min(4)) };
            memory.journal.put(at, journal_number(random, capacity));
        }
        let lent = if grown && !random.once_in(16) { head } else { any_ledger(random, words, limit) };
        let reach = (lent.set.words as usize).min(1 << 20) * 64;
        let kind = [Mark, Mark, Clear, Clear, MarkPoint, ClearPoint, TakeBack, TakeBack, TakeBack, Wipe, New, Open]
            [random.below(12)];
        let (start, end) = (position(random, reach), position(random, reach));
        let mut case = Case { seed, call, sound: false, kind, head: lent, storage_len, journal_len, start, end };
        match kind {
            New => {
                case.start = match random.below(4) {
                    0 => 1 << random.below(64),
                    1 => position(random, capacity),
                    _ => capacity,
                };
                case.end = any_limit(random, limit);
                make_new(case, &mut memory);
            }
            Open => {
                let file = any_file(random, words);
                (case.start, case.end) = (file.len(), any_limit(random, limit));
                let opened = make_open(case, &mut memory, random, &file);
                if opened.refused == 0 {
                    head = opened.head;
                }
            }
            _ => {
                let next = loose_call(case, &mut memory);
                // now and then the head stays behind the storage
                if lent == head && !random.once_in(8) {
                    head = next;
                }
            }
        }
        if head.used > head.journal || head.set.len > head.set.words * 64 {
            head = ledger(words, 0, true, limit, limit / 2);
        }
    }
    calls
}

/// The set's queries on a ledger's set, held to the machine.
fn look(case: Case, memory: &Memory, head: Ledger, machine: &Machine, random: &mut Random) {
    let (storage, len): (*const u64, usize) = (memory.storage.first(), case.storage_len);
    let capacity = machine.capacity();
    let (start, end) = (position(random, capacity), position(random, capacity));
    get_is(case, memory, head, machine, start);
    let count = unsafe { klado_set_count(head.set, storage, len, start, end) };
    let wanted = machine.count(start, end);
    let what = format!("count {start}..{end} gave");
    same(case, &what, (count.refused, count.value), (wanted.err().unwrap_or(0), wanted.unwrap_or(0)));
    for value in [true, false] {
        let next = if value { klado_set_next_one } else { klado_set_next_zero };
        let found = unsafe { next(head.set, storage, len, start, end) };
        let wanted = machine.next_run(start, end, value);
        let run = wanted.clone().ok().flatten();
        let what = format!("the search {start}..{end} for {value} gave");
        let (at, to) = run.as_ref().map_or((0, 0), |run| (run.start as u64, run.end as u64));
        let numbers = (wanted.err().unwrap_or(0), run.is_some() as u32, at, to);
        same(case, &what, (found.refused, found.found, found.at, found.end), numbers);
    }
    is_sound(case, &memory.storage, head.set);
}

fn get_is(case: Case, memory: &Memory, head: Ledger, machine: &Machine, at: usize) {
    let got = unsafe { klado_set_get(head.set, memory.storage.first(), case.storage_len, at) };
    let wanted = machine.get(at);
    if (got.refused, got.value) != (wanted.err().unwrap_or(0), wanted.unwrap_or(false) as u32) {
        wrong(case, &format!("get {at} gave {got:?} and not {wanted:?}"));
    }
}

/// The head that the machine asks for.
fn head_of(machine: &Machine, limit: usize) -> Ledger {
    ledger(machine.capacity() / 64, machine.population(), machine.begun(), limit, machine.journal().len())
}

/// One list on a sound ledger, from new or open. Answers how many calls.
fn sound_round(rooms: &mut Rooms, random: &mut Random, seed: u64, done: u64) -> u64 {
    // now and then a set of so many short runs that one call can fill the longest journal
    let crowded = random.once_in(400);
    let capacity = match random.below(128) {
        _ if crowded => 32768 << random.below(4),
        0 => 262144,
        1..=8 => 64 << random.below(10),
        _ => [64, 128, 4096, 8192][random.below(4)],
    };
    let limit = match random.below(16) {
        _ if crowded => LONGEST_JOURNAL - random.below(2),
        0 => LONGEST_JOURNAL,
        1 => 200,
        2..=6 => random.below(4),
        _ => random.below(41),
    };
    let more = |random: &mut Random| if random.once_in(4) { random.below(20) } else { 0 };
    let storage_len = needed(capacity / 64) + more(random);
    let journal_len = limit + more(random);
    let mut memory = Memory::new(rooms, random, storage_len, journal_len, capacity);
    let ways = Ways::new(random, capacity);
    let mut machine = Machine::fresh(capacity, limit);
    let mut head = ledger(0, 0, false, 0, 0);
    let calls = 32 + random.below(if crowded { 64 } else { 200 }) as u64;
    let mut case = Case { seed, call: done, sound: true, kind: New, head, storage_len, journal_len, start: 0, end: 0 };
    for call in done..done + calls {
        let value = random.below(8) < ways.ones;
        let pick = if call == done { crowded as usize | random.below(2) } else { random.below(256) };
        case.call = call;
        case.head = head;
        case.kind = match pick {
            0 => New,
            1 => Open,
            2..=4 => Wipe,
            _ if pick / 4 < ways.backs => TakeBack,
            _ if pick % 4 == 0 => [ClearPoint, MarkPoint][value as usize],
            _ => [Clear, Mark][value as usize],
        };
        (case.start, case.end) = ways.range(random, &machine, value);
        let answer = match case.kind {
            New => {
                (case.start, case.end) = (capacity, limit);
                head = make_new(case, &mut memory).head;
                machine = Machine::fresh(capacity, limit);
                Ok(0)
            }
            Open => {
                let most = if crowded || random.once_in(4) { capacity / 2 } else { capacity.min(200) };
                let reach = if crowded { 1 + random.below(2) } else { any_reach(random) };
                let runs = any_runs(random, capacity, most, reach);
                let file = saved((capacity / 64) as u16, &runs);
                (case.start, case.end) = (file.len(), limit);
                head = make_open(case, &mut memory, random, &file).head;
                machine = Machine::open(capacity, limit, &runs);
                Ok(0)
            }
            Mark | Clear => machine.assign(case.start, case.end, value),
            MarkPoint | ClearPoint => machine.assign(case.start, case.start.saturating_add(1), value),
            TakeBack => machine.back(),
            Wipe => Ok(machine.wipe()),
        };
        let after = head_of(&machine, limit);
        if matches!(case.kind, New | Open) {
            same(case, "the head is", head, after);
        } else {
            let (refused, value) = (answer.err().unwrap_or(0), answer.unwrap_or(0));
            let told = perform(case, &mut memory);
            if case.kind == TakeBack && (told.refused, told.value) == (0, 0) {
                wrong(case, "an accepted take-back changed nothing");
            }
            same(case, "the call gave", told, LedgerAnswer { refused, value, head: after });
            head = told.head;
        }
        let used = machine.journal().len();
        same(case, "the journal is", &memory.journal.numbers()[..used], machine.journal());
        if random.once_in(6) {
            look(case, &memory, head, &machine, random);
        }
    }
    for at in 0..capacity {
        get_is(case, &memory, head, &machine, at);
    }
    look(case, &memory, head, &machine, random);
    calls
}

fn main() {
    let mut rooms = Rooms::new();
    run(&NOW, |random, seed, done| {
        let round = if random.once_in(2) { loose_round } else { sound_round };
        round(&mut rooms, random, seed, done)
    });
}
