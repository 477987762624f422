//! A hierarchical wheel of plain Rust that makes the expirations of a run of fires: six levels of 64 slots, the lowest a nanosecond
//! each. A slot is a list; what stands at a higher level comes down when its slot is reached. It makes expirations of one moment
//! in any order.

use crate::heaps::Fires;

const LEVELS: usize = 6;
const NONE: u16 = u16::MAX;

struct Wheel {
    heads: [[u16; 64]; LEVELS],
    occupied: [u64; LEVELS],
    next: Vec<u16>,
    elapsed: u64,
}

/// The first slot that is not empty: its level, its number and when it begins.
struct Slot {
    level: usize,
    number: usize,
    start: u64,
}

impl Wheel {
    fn new(count: usize) -> Wheel {
        Wheel {
            heads: [[NONE; 64]; LEVELS],
            occupied: [0; LEVELS],
            next: vec![NONE; count],
            elapsed: 0,
        }
    }

    fn insert(&mut self, index: u16, moment: u64) {
        let differing = (self.elapsed ^ moment) | 63;
        let level = differing.ilog2() as usize / 6;
        let slot = (moment >> (6 * level)) as usize & 63;
        self.next[index as usize] = self.heads[level][slot];
        self.heads[level][slot] = index;
        self.occupied[level] |= 1 << slot;
    }

    fn first(&self) -> Option<Slot> {
        let level = self.occupied.iter().position(|slots| *slots != 0)?;
        let here = (self.elapsed >> (6 * level)) as u32 & 63;
        let ahead = self.occupied[level].rotate_right(here).trailing_zeros();
        let number = ((here + ahead) & 63) as usize;
        let round = self.elapsed >> (6 * level + 6) << (6 * level + 6);
        Some(Slot {
            level,
            number,
            start: round + ((number as u64) << (6 * level)),
        })
    }

    /// Empties a slot, and gives the first of its list.
    fn take(&mut self, slot: &Slot) -> u16 {
        self.elapsed = self.elapsed.max(slot.start);
        self.occupied[slot.level] &= !(1 << slot.number);
        std::mem::replace(&mut self.heads[slot.level][slot.number], NONE)
    }
}

impl Fires<'_> {
    pub fn by_wheel(self, mut handler: impl FnMut(u64)) {
        let mut moments = self.intervals.to_vec();
        let mut wheel = Wheel::new(moments.len());
        for (index, moment) in moments.iter().enumerate() {
            wheel.insert(index as u16, *moment);
        }
        let mut now = 0;
        for _ in 0..self.fires {
            now += self.step;
            while let Some(slot) = wheel.first() {
                if slot.start > now {
                    break;
                }
                let mut index = wheel.take(&slot);
                while index != NONE {
                    let position = index as usize;
                    let next = wheel.next[position];
                    if slot.level == 0 {
                        handler(position as u64 + 1);
                        moments[position] += self.intervals[position];
                    }
                    wheel.insert(index, moments[position]);
                    index = next;
                }
            }
            wheel.elapsed = now;
        }
    }
}
