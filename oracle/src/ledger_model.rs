//! The ledger as docs/SPECIFICATION.md (01) has it, written from that paper alone: its plain machine, and the journal that its
//! standing calls fill. No head, no storage, and nothing of the library.

use crate::saved_list::*;

struct Standing {
    start: usize,
    end: usize,
    value: bool,
    needed: usize,
}

/// The positions of start..end, none where start is not below end.
fn range(start: usize, end: usize) -> std::ops::Range<usize> {
    start.min(end)..end
}

pub struct Machine {
    limit: usize,
    opened: Vec<bool>,
    has: Vec<bool>,
    population: u32,
    calls: Vec<Standing>,
    journal: Vec<u32>,
    begun: bool,
}

impl Machine {
    pub fn fresh(capacity: usize, limit: usize) -> Self {
        Machine::open(capacity, limit, &[])
    }

    pub fn open(capacity: usize, limit: usize, runs: &[(u32, u32)]) -> Self {
        let mut opened = vec![false; capacity];
        for &(start, end) in runs {
            opened[start as usize..end as usize].fill(true);
        }
        let population = opened.iter().filter(|has| **has).count() as u32;
        let (calls, journal) = (Vec::new(), Vec::new());
        Machine { limit, has: opened.clone(), opened, population, calls, journal, begun: !runs.is_empty() }
    }

    pub fn capacity(&self) -> usize {
        self.has.len()
    }

    pub fn population(&self) -> u32 {
        self.population
    }

    /// The ledger head's flag.
    pub fn begun(&self) -> bool {
        self.begun
    }

    /// The journal from 0 to U.
    pub fn journal(&self) -> &[u32] {
        &self.journal
    }

    /// J less the needs of all standing calls.
    fn free(&self) -> usize {
        self.limit - self.calls.iter().map(|call| call.needed).sum::<usize>()
    }

    /// The longest stretches of start..end that do not have the value yet.
    fn runs(&self, start: usize, end: usize, value: bool) -> Vec<(u32, u32)> {
        let mut runs: Vec<(u32, u32)> = Vec::new();
        for at in range(start, end).filter(|at| self.has[*at] != value) {
            match runs.last_mut() {
                Some(run) if run.1 == at as u32 => run.1 += 1,
                _ => runs.push((at as u32, at as u32 + 1)),
            }
        }
        runs
    }

    /// A marking or clearing: its changed count, or the refusal.
    pub fn assign(&mut self, start: usize, end: usize, value: bool) -> Result<u32, u32> {
        if end > self.capacity() {
            return Err(4);
        }
        let runs = self.runs(start, end, value);
        if runs.is_empty() {
            return Ok(0); // it changes nothing: it does not stand, and uses no number
        }
        let needed = 1 + 2 * runs.len();
        if needed > self.free() {
            return Err(6);
        }
        let changed = runs.iter().map(|run| run.1 - run.0).sum();
        self.has[range(start, end)].fill(value);
        self.population = if value { self.population + changed } else { self.population - changed };
        self.begun |= value && start < end;
        self.journal.extend(runs.iter().flat_map(|run| [run.0, run.1]));
        self.journal.push(2 * runs.len() as u32 + value as u32);
        self.calls.push(Standing { start, end, value, needed });
        Ok(changed)
    }

    /// Take-back: how many positions changed back, or the refusal. The set is made again from the calls that still stand.
    pub fn back(&mut self) -> Result<u32, u32> {
        let Some(last) = self.calls.pop() else { return Err(5) };
        let over = range(last.start, last.end);
        let old = self.has[over.clone()].to_vec();
        self.has[over.clone()].copy_from_slice(&self.opened[over.clone()]);
        for call in &self.calls {
            let both = over.start.max(call.start)..over.end.min(call.end);
            if !both.is_empty() {
                self.has[both].fill(call.value);
            }
        }
        let changed = self.has[over].iter().zip(&old).filter(|(new, old)| new != old).count() as u32;
        self.population = if last.value { self.population - changed } else { self.population + changed };
        self.journal.truncate(self.journal.len() - last.needed);
        Ok(changed)
    }

    /// Wipe: the old population.
    pub fn wipe(&mut self) -> u32 {
        self.opened.fill(false);
        self.has.fill(false);
        self.calls.clear();
        self.journal.clear();
        std::mem::take(&mut self.population)
    }

    pub fn get(&self, at: usize) -> Result<bool, u32> {
        self.has.get(at).copied().ok_or(4)
    }

    pub fn count(&self, start: usize, end: usize) -> Result<u32, u32> {
        if end > self.capacity() {
            return Err(4);
        }
        Ok(self.has[range(start, end)].iter().filter(|has| **has).count() as u32)
    }

    /// The run of the value that starts at the first position of start..end with it: up to the first later one that differs, or the end.
    pub fn next_run(&self, start: usize, end: usize, value: bool) -> Result<Option<std::ops::Range<usize>>, u32> {
        if end > self.capacity() {
            return Err(4);
        }
        let first = range(start, end).find(|at| self.has[*at] == value);
        Ok(first.map(|at| at..(at..end).find(|to| self.has[*to] != value).unwrap_or(end)))
    }

    /// The greatest end up to which a call from `start` still finds room in the journal.
    pub fn last_end(&self, start: usize, value: bool) -> usize {
        let (free, mut runs) = (self.free(), 0);
        for at in start..self.capacity() {
            let begins = self.has[at] != value && (at == start || self.has[at - 1] == value);
            runs += begins as usize;
            if runs > 0 && 1 + 2 * runs > free {
                return at;
            }
        }
        self.capacity()
    }

    /// The greatest end up to which a call from `start` changes nothing.
    pub fn idle_end(&self, start: usize, value: bool) -> usize {
        (start..self.capacity()).find(|at| self.has[*at] != value).unwrap_or(self.capacity())
    }
}

/// The first rule that new breaks, or 0. `storage` and `journal` are the slices' lengths.
pub fn new_refusal(capacity: usize, limit: usize, storage: usize, journal: usize) -> u32 {
    if !allowed(capacity) || limit > LONGEST_JOURNAL {
        return 1;
    }
    if storage < storage_needed(capacity) || journal < limit { 3 } else { 0 }
}
