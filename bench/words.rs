//! One soft level as shared words, as a Rust programmer writes it without proofs: the same words, the same atomic steps in
//! the same order, all sequentially consistent, and the same look-up of an id. Two numbers say where the words lie. The words of
//! neighbouring indexes are `SPREAD` words apart: 9 is as the proved ring has them, on two cache lines, and 1 is their order. All
//! words are `APART` times as far apart: 1 is as the proved ring has them, and 8 puts each on a cache line of its own.

use std::hint::spin_loop;
use std::sync::atomic::{AtomicU64, Ordering::SeqCst};

/// The indexes of a ring: as many as there are slots in its greatest bank.
pub const CYCLICS: usize = 1 << BANK;
pub const BANK: usize = 12;
/// Behind a word for each index and those of all banks are one for each bank's producer, and then the banks of the two sides.
pub const PRODUCERS: usize = 3 * CYCLICS - 1;
pub const HARD: usize = PRODUCERS + BANK + 1;
const SOFT: usize = HARD + 1;
pub const WORDS: usize = SOFT + 1;
/// The hints of a look-up.
const HINTS: usize = 256;
const MARK: u64 = 1 << 32;

pub struct Ring<const APART: usize, const SPREAD: usize> {
    words: Vec<AtomicU64>,
}

impl<const APART: usize, const SPREAD: usize> Ring<APART, SPREAD> {
    pub fn open() -> Ring<APART, SPREAD> {
        Ring {
            words: (0..WORDS * APART).map(|_| AtomicU64::new(0)).collect(),
        }
    }

    fn word(&self, number: usize) -> &AtomicU64 {
        &self.words[number * APART]
    }
}

/// Which of so many words an index has.
pub fn spread<const SPREAD: usize>(size: usize, index: usize) -> usize {
    index * SPREAD & (size - 1)
}

/// The pend word of an index.
pub fn pend_word<const SPREAD: usize>(index: usize) -> usize {
    spread::<SPREAD>(CYCLICS, index)
}

/// The index of each id: a hint by its low bits, and behind it the ids in rising order.
struct Finder {
    ids: Vec<u64>,
    indexes: Vec<usize>,
    hints: Vec<(u64, usize)>,
}

impl Finder {
    fn insert(&mut self, id: u64, index: usize) {
        let position = self.ids.partition_point(|other| *other < id);
        self.ids.insert(position, id);
        self.indexes.insert(position, index);
        self.hints[id as usize % HINTS] = (id, index);
    }

    fn find(&self, id: u64) -> Option<usize> {
        let (hinted, index) = self.hints[id as usize % HINTS];
        if hinted == id {
            return Some(index);
        }
        self.ids
            .binary_search(&id)
            .ok()
            .map(|position| self.indexes[position])
    }
}

pub struct RaiseEnd<'a, const APART: usize, const SPREAD: usize> {
    ring: &'a Ring<APART, SPREAD>,
    finder: Finder,
    ceiling: u32,
    sent: [u64; CYCLICS],
    lost: [u64; CYCLICS],
    bank: usize,
    mask: usize,
    next: u32,
}

impl<'a, const APART: usize, const SPREAD: usize> RaiseEnd<'a, APART, SPREAD> {
    /// The firing side, switched to the greatest bank, with the ids from 1 to `ids` admitted.
    pub fn filled(ring: &'a Ring<APART, SPREAD>, ids: u16) -> RaiseEnd<'a, APART, SPREAD> {
        let mut raise_end = RaiseEnd {
            ring,
            finder: Finder {
                ids: Vec::with_capacity(CYCLICS),
                indexes: Vec::with_capacity(CYCLICS),
                hints: vec![(0, 0); HINTS],
            },
            ceiling: u32::MAX,
            sent: [0; CYCLICS],
            lost: [0; CYCLICS],
            bank: BANK,
            mask: CYCLICS - 1,
            next: 0,
        };
        ring.word(HARD).store(BANK as u64, SeqCst);
        for index in 0..usize::from(ids) {
            ring.word(pend_word::<SPREAD>(index)).load(SeqCst);
            raise_end.finder.insert(index as u64 + 1, index);
        }
        raise_end
    }

    pub fn raise(&mut self, id: u64) {
        let index = self.finder.find(id).expect("an admitted id");
        let pend = self.ring.word(pend_word::<SPREAD>(index));
        let before = pend.load(SeqCst);
        self.sent[index] += 1;
        if before == u64::from(self.ceiling) {
            self.lost[index] += 1;
            return;
        }
        if pend.fetch_add(1, SeqCst) != 0 {
            return;
        }
        let slot = CYCLICS + self.mask + spread::<SPREAD>(self.mask + 1, self.next as usize);
        self.ring.word(slot).store(id * CYCLICS as u64 + index as u64, SeqCst);
        self.next = self.next.wrapping_add(1);
        self.ring
            .word(PRODUCERS + self.bank)
            .store(u64::from(self.next), SeqCst);
    }

    fn load_pend(&self, id: u64) -> u64 {
        let index = self.finder.find(id).expect("an admitted id");
        self.ring.word(pend_word::<SPREAD>(index)).load(SeqCst) % MARK
    }

    /// Whether no call of the ids from 1 to `ids` is outstanding, and the soft side is on this side's bank.
    pub fn is_settled(&self, ids: u16) -> bool {
        (1..=u64::from(ids)).all(|id| self.load_pend(id) == 0)
            && self.ring.word(SOFT).load(SeqCst) == self.bank as u64
    }

    /// So many raises, the ids from 1 to `ids` round, each where its calls are done.
    pub fn raise_done(&mut self, ids: u16, turns: u64) {
        let mut id = 1;
        for _ in 0..turns {
            while self.load_pend(id) != 0 {
                spin_loop();
            }
            self.raise(id);
            id = if id < u64::from(ids) { id + 1 } else { 1 };
        }
    }
}

pub struct DrainEnd<'a, const APART: usize, const SPREAD: usize> {
    ring: &'a Ring<APART, SPREAD>,
    bank: usize,
    mask: usize,
    next: u32,
    hand: u64,
}

impl<'a, const APART: usize, const SPREAD: usize> DrainEnd<'a, APART, SPREAD> {
    pub fn new(ring: &'a Ring<APART, SPREAD>) -> DrainEnd<'a, APART, SPREAD> {
        DrainEnd {
            ring,
            bank: 0,
            mask: 0,
            next: 0,
            hand: 0,
        }
    }

    fn take(&mut self) -> bool {
        loop {
            let bank = self.ring.word(HARD).load(SeqCst) as usize;
            let end = self.ring.word(PRODUCERS + self.bank).load(SeqCst);
            if end != u64::from(self.next) {
                let slot = CYCLICS + self.mask + spread::<SPREAD>(self.mask + 1, self.next as usize);
                self.hand = self.ring.word(slot).load(SeqCst);
                self.next = self.next.wrapping_add(1);
                return true;
            }
            if bank == self.bank {
                return false;
            }
            self.ring.word(SOFT).store(bank as u64, SeqCst);
            self.bank = bank;
            self.mask = (1 << bank) - 1;
            self.next = 0;
        }
    }

    /// Takes the next cyclic where the hand is empty. Whether one is in hand.
    fn has_taken(&mut self) -> bool {
        self.hand != 0 || self.take()
    }

    /// The id of the cyclic in hand, which is taken where the hand is empty.
    pub fn in_hand(&mut self) -> Option<u64> {
        self.has_taken().then(|| self.hand / CYCLICS as u64)
    }

    /// The call of the cyclic in hand is done. Whether it was its last.
    pub fn finish(&mut self) -> bool {
        let found = self
            .ring
            .word(pend_word::<SPREAD>(self.hand as usize % CYCLICS))
            .fetch_sub(1, SeqCst);
        if found % MARK <= 1 {
            self.hand = 0;
        }
        found == 1
    }

    /// Takes and finishes one call. Whether it was the last of its cyclic.
    pub fn serve(&mut self) -> bool {
        self.has_taken() && self.finish()
    }

    /// Takes and finishes until so many calls are finished.
    pub fn serve_until(&mut self, calls: u64) -> u64 {
        let mut made = 0;
        while made < calls {
            if self.has_taken() {
                self.finish();
                made += 1;
            } else {
                spin_loop();
            }
        }
        made
    }
}
