//! What the fuzz drivers share: slices against a page that may not be touched, random heads, numbers and positions, the
//! report of a fault, and the run.

use crate::port::*;
use crate::random::Random;
use std::cell::UnsafeCell;
use std::fmt::{Debug, Formatter};
use std::ops::Range;
use std::sync::OnceLock;
use std::time::{Duration, Instant};

const PAGE: usize = 4096;
/// Numbers on each side of a slice that are checked too, where no guard page is.
pub const MARGIN: usize = 64;
/// The longest storage that `slice_len` gives.
pub const MOST: usize = 4290 + 600;

/// The call under way, for the report of a fault. Each driver has one, and names it to `run`.
pub struct Now<C>(UnsafeCell<Option<C>>);
unsafe impl<C> Sync for Now<C> {}
static NOW: OnceLock<&'static (dyn Debug + Sync)> = OnceLock::new();

impl<C> Now<C> {
    pub const fn new() -> Self {
        Now(UnsafeCell::new(None))
    }

    pub fn is(&self, case: C) {
        unsafe { *self.0.get() = Some(case) };
    }
}

impl<C: Debug> Debug for Now<C> {
    fn fmt(&self, out: &mut Formatter) -> std::fmt::Result {
        unsafe { &*self.0.get() }.fmt(out)
    }
}

/// The driver's name: the crate's, which is the first part of this module's path.
fn driver() -> &'static str {
    module_path!().split("::").next().unwrap_or_default()
}

extern "C" fn fault(number: i32) {
    let what = if number == 14 { "no end after 20 seconds" } else { "a fault" };
    println!("{}: {what} (signal {number}) in {:?}", driver(), NOW.get().unwrap());
    unsafe { _exit(1) }
}

pub fn wrong(case: impl Debug, what: &str) -> ! {
    println!("{}: WRONG, {what}, in {case:?}", driver());
    std::process::exit(1);
}

/// Memory with a page on either side that may not be touched.
pub struct Room<T> {
    pub first: *mut T,
    numbers: usize,
}

impl<T> Room<T> {
    /// Room for a slice of `most` numbers with its margins.
    pub fn new(most: usize) -> Self {
        let size = size_of::<T>();
        let bytes = ((most + 2 * MARGIN) * size).div_ceil(PAGE) * PAGE;
        // PROT_READ | PROT_WRITE, MAP_PRIVATE | MAP_ANONYMOUS; then PROT_NONE for the guards
        unsafe {
            let base = mmap(std::ptr::null_mut(), bytes + 2 * PAGE, 3, 0x22, -1, 0);
            assert!(base as isize != -1, "mmap failed");
            let end = base.byte_add(PAGE + bytes);
            assert!(mprotect(base, PAGE, 0) == 0 && mprotect(end, PAGE, 0) == 0, "mprotect failed");
            Room { first: base.byte_add(PAGE).cast(), numbers: bytes / size }
        }
    }

    pub fn all(&mut self) -> &mut [T] {
        unsafe { std::slice::from_raw_parts_mut(self.first, self.numbers) }
    }
}

/// The slice of one round: where it lies in the room, and what the room held before the call.
pub struct Round<T> {
    pub from: usize,
    pub len: usize,
    low: usize,
    high: usize,
    before: Vec<T>,
}

impl<T: Copy + PartialEq> Round<T> {
    /// Fills a slice of `len` numbers against one of the guards.
    pub fn new(room: &mut Room<T>, random: &mut Random, len: usize, filling: impl Fn(&mut Random) -> T) -> Self {
        let from = if random.once_in(4) { 0 } else { room.numbers - len };
        let (low, high) = (from.saturating_sub(MARGIN), (from + len + MARGIN).min(room.numbers));
        for number in &mut room.all()[low..high] {
            *number = filling(random);
        }
        Round { from, len, low, high, before: room.all()[low..high].to_vec() }
    }

    /// Holds the room to what it held, but for the slice's `free` numbers, and remembers those. Answers what is wrong.
    pub fn check(&mut self, room: &mut Room<T>, free: Range<usize>) -> Option<&'static str> {
        let all = room.all();
        let (free_from, free_to) = (self.from + free.start, self.from + free.end);
        let (start, end) = (free_from - self.low, free_to - self.low);
        if all[self.low..self.from] != self.before[..self.from - self.low] {
            return Some("a number below the slice was written");
        }
        if all[self.from..free_from] != self.before[self.from - self.low..start] {
            return Some("a number below the free ones was written");
        }
        if all[free_to..self.high] != self.before[end..] {
            let none = free.is_empty();
            return Some(if none {
                "a refused call or a query wrote"
            } else {
                "a number past the needed ones was written"
            });
        }
        self.before[start..end].copy_from_slice(&all[free_from..free_to]);
        None
    }

    /// Writes one number of the slice, as the caller of the library may.
    pub fn put(&mut self, room: &mut Room<T>, at: usize, number: T) {
        room.all()[self.from + at] = number;
        self.before[self.from - self.low + at] = number;
    }
}

/// Turns some bits of a set's storage.
pub fn turn_bits(round: &mut Round<u64>, room: &mut Room<u64>, random: &mut Random) {
    if round.len == 0 {
        return;
    }
    for _ in 0..random.below(6) {
        // the masks and populations lie at the end, so look there often
        let back = if random.once_in(2) { round.len } else { round.len.min(12) };
        let at = round.len - 1 - random.below(back);
        let number =
            if random.once_in(3) { filling(random) } else { room.all()[round.from + at] ^ 1 << random.below(64) };
        round.put(room, at, number);
    }
}

pub fn filling(random: &mut Random) -> u64 {
    match random.below(8) {
        0 => 0,
        1 => u64::MAX,
        2 => 1 << random.below(64),
        3 => random.next() & random.next() & random.next(),
        4 => random.next() >> random.below(64),
        _ => random.next(),
    }
}

pub fn any_head(random: &mut Random, words: usize) -> Head {
    let words = match random.below(16) {
        0 => random.next() as u32,
        1 => random.below(8200) as u32,
        2 => 1 << random.below(32),
        3 => (words as u32).wrapping_add(random.below(3) as u32).wrapping_sub(1),
        4 => 0,
        _ => words as u32,
    };
    let capacity = words.wrapping_mul(64);
    let len = match random.below(8) {
        0 => random.next() as u32,
        1 => 0,
        2 => capacity.wrapping_add(random.below(3) as u32).wrapping_sub(1),
        3 => capacity,
        _ => random.below(capacity as usize + 1) as u32,
    };
    Head { words, len, allocated: !random.once_in(8) as u8 }
}

pub fn position(random: &mut Random, capacity: usize) -> usize {
    match random.below(16) {
        0 => random.next() as usize,
        1 => usize::MAX - random.below(2),
        2 => capacity + random.below(3),
        3 => capacity.saturating_sub(random.below(3)),
        4 => random.below(3),
        5..=7 => (random.below(capacity / 64 + 1) * 64 + random.below(3)).saturating_sub(1),
        _ => random.below(capacity + 1),
    }
}

pub fn slice_len(random: &mut Random, words: usize) -> usize {
    let exact = needed(words);
    match random.below(8) {
        0 => random.below(exact),
        1 => exact - 1,
        2 => exact + random.below(MARGIN),
        3 => exact + random.below(500),
        _ => exact,
    }
}

/// The run that the driver's words ask for. `round` makes one round's calls, numbered from `done`, and answers how many.
pub fn run<C: Debug>(now: &'static Now<C>, mut round: impl FnMut(&mut Random, u64, u64) -> u64) {
    let arguments: Vec<String> = std::env::args().skip(1).collect();
    let number = |at: usize| arguments.get(at).and_then(|word| word.parse::<u64>().ok());
    let seconds = arguments.first().and_then(|word| word.strip_suffix('s')).and_then(|word| word.parse().ok());
    let (Some(seed), true) = (number(1), number(0).is_some() || seconds.is_some()) else {
        eprintln!("usage: {} N SEED, N calls or, as 20s, seconds", driver());
        std::process::exit(2);
    };
    NOW.set(now).expect("one run");
    // SIGILL, SIGABRT, SIGBUS, SIGFPE, SIGSEGV, SIGALRM
    for signal_number in [4, 6, 7, 8, 11, 14] {
        unsafe { signal(signal_number, fault) };
    }
    let most = number(0).unwrap_or(u64::MAX);
    let time = Duration::from_secs(seconds.unwrap_or(u64::MAX));
    let begun = Instant::now();
    let mut random = Random::new(seed);
    let mut done = 0;
    while done < most && begun.elapsed() < time {
        unsafe { alarm(20) };
        done += round(&mut random, seed, done);
    }
    println!("{}: no fault, {done} calls, seed {seed}, {:.1} s", driver(), begun.elapsed().as_secs_f64());
}
