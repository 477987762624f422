//! One soft level as a Rust programmer writes it without proofs: a table sorted by id, two lists, two hands.
use std::collections::VecDeque;
use std::hint::black_box;

/// The cyclics of a CPU.
const CYCLICS: usize = 4096;

#[derive(Clone, Copy, PartialEq, Eq, PartialOrd, Ord)]
struct CyclicId(u64);

#[derive(Clone, Copy)]
struct Admitted {
    id: CyclicId,
    index: u16,
    sent: u64,
    done: u64,
    lost: u64,
    count: u32,
}

#[derive(PartialEq, Eq)]
enum Finished {
    More,
    Last,
    LastOfRemoval,
}

struct Level {
    ceiling: u32,
    hard_bank: u8,
    soft_bank: u8,
    table: Vec<Admitted>,
    marked: Option<CyclicId>,
    old_list: VecDeque<CyclicId>,
    new_list: VecDeque<CyclicId>,
    drainer_hand: Option<CyclicId>,
}

impl Level {
    fn new(ceiling: u32, bank: u8) -> Level {
        Level {
            ceiling,
            hard_bank: bank,
            soft_bank: 0,
            table: Vec::with_capacity(CYCLICS),
            marked: None,
            old_list: VecDeque::with_capacity(CYCLICS),
            new_list: VecDeque::with_capacity(CYCLICS),
            drainer_hand: None,
        }
    }

    fn admit(&mut self, id: CyclicId, index: u16) {
        let position = self.table.partition_point(|entry| entry.id < id);
        let entry = Admitted {
            id,
            index,
            sent: 0,
            done: 0,
            lost: 0,
            count: 0,
        };
        self.table.insert(position, entry);
    }

    fn entry(&mut self, id: CyclicId) -> &mut Admitted {
        let position = self
            .table
            .binary_search_by_key(&id, |entry| entry.id)
            .expect("an admitted id");
        &mut self.table[position]
    }

    fn raise(&mut self, id: CyclicId) {
        let ceiling = self.ceiling;
        let entry = self.entry(id);
        entry.sent += 1;
        if entry.count == ceiling {
            entry.lost += 1;
            return;
        }
        entry.count += 1;
        if entry.count == 1 {
            self.new_list.push_back(id);
        }
    }

    fn take(&mut self) -> Option<CyclicId> {
        if self.hard_bank != self.soft_bank && self.old_list.is_empty() {
            self.soft_bank = self.hard_bank;
        }
        let list = if self.hard_bank == self.soft_bank {
            &mut self.new_list
        } else {
            &mut self.old_list
        };
        self.drainer_hand = list.pop_front();
        self.drainer_hand
    }

    fn finish(&mut self, id: CyclicId) -> Finished {
        let entry = self.entry(id);
        entry.done += 1;
        entry.count -= 1;
        if entry.count > 0 {
            return Finished::More;
        }
        self.drainer_hand = None;
        if self.marked == Some(id) {
            Finished::LastOfRemoval
        } else {
            Finished::Last
        }
    }
}

/// `turns` times one raise, one take and one finish, the ids from 1 to `ids` raised round.
#[inline(never)]
pub fn hand_overs(ids: u16, turns: u64) -> u64 {
    let mut level = Level::new(u32::MAX, 8);
    for index in 0..ids {
        level.admit(CyclicId(u64::from(index) + 1), index);
    }
    let mut number = 1;
    let mut last = 0;
    for _ in 0..turns {
        level.raise(CyclicId(number));
        if level.drainer_hand.is_none() {
            level.take();
        }
        if let Some(id) = level.drainer_hand
            && level.finish(id) == Finished::Last
        {
            last += 1;
        }
        number = if number < u64::from(ids) {
            number + 1
        } else {
            1
        };
    }
    let books: u64 = level
        .table
        .iter()
        .map(|e| e.sent - e.done - e.lost + u64::from(e.index))
        .sum();
    black_box(books);
    last
}
