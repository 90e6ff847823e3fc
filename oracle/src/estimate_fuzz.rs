//! estimate_fuzz N SEED: N calls (or, written `20s`, calls for 20 seconds) of klado_estimate_price, in rounds of two kinds.
//!
//! On memory that is not sound: heads are random, nearly good or good; storage holds random numbers, or a set that calls have made
//! with some bits turned; storage and edges are short, exact or long. It checks that each call returns without a fault, that 2, 3, 4
//! and 12 are refused exactly and in this order and 13 only with a position of the range whose edge is 0; that a refused call answers seven
//! zeros; that an accepted one's numbers agree: the classes' sheets are all the sheets, at 02's prices they are the sum, and there are no
//! more than the range has positions; and that nothing is written. Where the audit calls such memory sound, the set is read by
//! `get`, and its answer is owed.
//!
//! On sets that calls made: every answer is held to a plain loop over the positions, written from 02 alone. Edges are often on a border of
//! a class or beside it, and there are lists with no edge missing, with some, and with one.
//!
//! Every slice lies against a page that may not be touched, before it or after it.

mod guarded;
mod ledger_port;
mod lent;
mod made_set;
mod port;
mod random;

use guarded::*;
use ledger_port::*;
use lent::*;
use made_set::{Made, any_capacity};
use port::*;
use random::Random;

/// 02's classes: the lowest edge of each, and the price in pence.
const CLASSES: [(u16, u32); 5] = [(1, 650), (421, 1100), (595, 1400), (842, 1850), (1190, 4200)];
const NOTHING: Estimate = Estimate { pence: 0, sheets: 0, classes: [0; 5] };

static NOW: Now<Case> = Now::new();

#[derive(Clone, Copy, Debug)]
#[allow(dead_code)]
struct Case {
    seed: u64,
    call: u64,
    round: &'static str,
    head: Head,
    storage_len: usize,
    edges_len: usize,
    start: usize,
    end: usize,
}

impl Case {
    fn capacity(&self) -> usize {
        64 * self.head.words as usize
    }

    /// How many positions the range has.
    fn length(&self) -> usize {
        self.end.saturating_sub(self.start)
    }
}

struct Rooms {
    storage: Room<u64>,
    edges: Room<u16>,
}

/// The header's rules in their order, but for 13.
fn refusal(case: &Case) -> u32 {
    if bad(case.head) {
        2
    } else if case.storage_len < needed(case.head.words as usize) {
        3
    } else if case.end > case.capacity() {
        4
    } else {
        12 * (case.edges_len < case.capacity()) as u32
    }
}

/// A call, and what holds on any memory.
fn price(case: Case, storage: &mut Lent<u64>, edges: &mut Lent<u16>) -> Estimated {
    NOW.is(case);
    let answer = unsafe {
        klado_estimate_price(
            case.head,
            storage.first(),
            case.storage_len,
            edges.first(),
            case.edges_len,
            case.start,
            case.end,
        )
    };
    storage.hold(0..0, case);
    edges.hold(0..0, case);
    let wanted = refusal(&case);
    if answer.refused != wanted && !(wanted == 0 && answer.refused == 13) {
        wrong(case, &format!("refused {} and not {wanted}", answer.refused));
    }
    let (at, order) = (answer.position as usize, answer.estimate);
    if answer.refused == 13 {
        if !(case.start..case.end).contains(&at) || edges.numbers()[at] != 0 {
            wrong(case, &format!("13 with the position {at}"));
        }
    } else {
        same(case, "beside no 13 the position is", at, 0);
    }
    if answer.refused != 0 {
        same(case, "beside a refusal the order is", order, NOTHING);
        return answer;
    }
    let priced: u64 = order.classes.iter().zip(CLASSES).map(|(&sheets, (_, price))| sheets as u64 * price as u64).sum();
    same(case, "the sum is", order.pence as u64, priced);
    same(case, "the number of sheets is", order.sheets as u64, order.classes.iter().map(|&sheets| sheets as u64).sum());
    if order.sheets as usize > case.length() {
        wrong(case, &format!("{} sheets in a range of {}", order.sheets, case.length()));
    }
    answer
}

/// The plain loop: the order, or the first position that has no edge.
fn plain(has: &[bool], edges: &[u16], start: usize, end: usize) -> Result<Estimate, usize> {
    let mut order = NOTHING;
    for at in start..end {
        if has[at] {
            continue;
        }
        let class = CLASSES.iter().rposition(|&(lowest, _)| edges[at] >= lowest).ok_or(at)?;
        order.pence += CLASSES[class].1;
        order.sheets += 1;
        order.classes[class] += 1;
    }
    Ok(order)
}

/// A call on a set that is known.
fn price_known(case: Case, storage: &mut Lent<u64>, edges: &mut Lent<u16>, has: &[bool]) {
    let answer = price(case, storage, edges);
    if refusal(&case) != 0 {
        return;
    }
    let (refused, position, estimate) = match plain(has, edges.numbers(), case.start, case.end) {
        Ok(order) => (0, 0, order),
        Err(at) => (13, at as u64, NOTHING),
    };
    same(case, "the answer is", answer, Estimated { refused, position, estimate });
}

/// An edge: on a border of a class or beside it, of any length, or of a usual one.
fn edge(random: &mut Random) -> u16 {
    match random.below(8) {
        0 => [1, 2, 1000, u16::MAX - 1, u16::MAX][random.below(5)],
        1..=3 => CLASSES[1 + random.below(4)].0 - 2 + random.below(4) as u16,
        4 => 1 + random.below(u16::MAX as usize) as u16,
        _ => 1 + random.below(1500) as u16,
    }
}

/// A list of edges, short, just long enough or longer; in it no edge is missing, or one in `rare`.
fn any_edges<'a>(room: &'a mut Room<u16>, random: &mut Random, capacity: usize) -> Lent<'a, u16> {
    let len = match random.below(12) {
        0 => random.below(capacity),
        1 => capacity - 1,
        2 | 3 => capacity + 1 + random.below(100),
        _ => capacity,
    };
    let rare = [0, 0, 2, 100, 4 * capacity][random.below(5)];
    Lent::new("edges", room, random, len, |random| if rare > 0 && random.once_in(rare) { 0 } else { edge(random) })
}

/// A start and an end: any two, or a short range.
fn any_range(random: &mut Random, capacity: usize) -> (usize, usize) {
    let start = position(random, capacity);
    let end = if random.once_in(2) { position(random, capacity) } else { start.saturating_add(random.below(200)) };
    if random.once_in(6) { (0, capacity) } else { (start, end) }
}

/// A round on memory that is not sound, mostly. Answers how many calls.
fn loose_round(rooms: &mut Rooms, random: &mut Random, seed: u64, done: u64) -> u64 {
    let words = 1 << if random.once_in(24) { random.below(13) } else { random.below(8) };
    let capacity = 64 * words;
    let (mut head, mut storage) = any_side("storage", &mut rooms.storage, random, words);
    let mut edges = any_edges(&mut rooms.edges, random, capacity);
    let calls = 8 + random.below(32) as u64;
    for call in done..done + calls {
        match random.below(12) {
            0 => turn_bits(&mut storage.round, storage.room, random),
            1 => head = any_head(random, words),
            2 if edges.len() > 0 => edges.put(random.below(edges.len()), [0, edge(random)][random.below(2)]),
            _ => {}
        }
        let (start, end) = any_range(random, capacity);
        let (storage_len, edges_len) = (storage.len(), edges.len());
        let case = Case { seed, call, round: "not sound", head, storage_len, edges_len, start, end };
        if !bad(head) && words <= 128 && sound(&storage, head) {
            let has = positions(&storage, head);
            price_known(case, &mut storage, &mut edges, &has);
        } else {
            price(case, &mut storage, &mut edges);
        }
    }
    calls
}

/// A round on a set that calls make. Answers how many calls.
fn made_round(rooms: &mut Rooms, random: &mut Random, seed: u64, done: u64) -> u64 {
    let capacity = any_capacity(random);
    let mut set = Made::new(&mut rooms.storage, random, capacity);
    let mut edges = any_edges(&mut rooms.edges, random, capacity);
    let mut call = done;
    for _ in 0..1 + random.below(6) {
        for _ in 0..8 {
            let (start, end) = any_range(random, capacity);
            let (storage_len, edges_len) = (set.storage.len(), edges.len());
            let case = Case { seed, call, round: "made by calls", head: set.head, storage_len, edges_len, start, end };
            price_known(case, &mut set.storage, &mut edges, &set.has);
            call += 1;
        }
        set.change(random);
        // one edge more that is missing, or one less
        for _ in 0..random.below(3) {
            if edges.len() > 0 {
                edges.put(random.below(edges.len()), [0, edge(random)][random.below(2)]);
            }
        }
    }
    call - done
}

fn main() {
    let mut rooms = Rooms { storage: Room::new(MOST), edges: Room::new(262144 + 200) };
    run(&NOW, |random, seed, done| {
        let round = [loose_round, made_round][random.below(2)];
        round(&mut rooms, random, seed, done)
    });
}
