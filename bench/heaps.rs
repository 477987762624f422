//! Three heaps of plain Rust that make the expirations of a run of fires, each in the same order: a heap of indexes that looks
//! its keys up, as the kernel's `cyclic_downheap`; a heap that keeps its keys, by a bottom-up sift of a hole; and the library's
//! `BinaryHeap` by `peek_mut`. Each begins with one cyclic for each interval, the ids from 1 on, and calls the handler with
//! the id of each expiration.

use std::cmp::Reverse;
use std::collections::BinaryHeap;

/// The rounds of each row, of which the least time counts. They are short, some 280,000 expirations a side, so that in some of them no
/// other guest of a shared machine may compute on the same core.
pub const ROUNDS: usize = 45;

/// The rows: how many cyclics, and the nanoseconds between two fires.
pub const FIRES: [(usize, u64); 10] = [
    (16, 64),
    (16, 8),
    (64, 64),
    (64, 8),
    (256, 64),
    (256, 8),
    (1024, 64),
    (1024, 8),
    (4096, 64),
    (4096, 8),
];

/// What the rows of the tables are.
pub const WHAT: &str = "Cyclics, nanoseconds between two fires";

/// The columns of a table that has the proved side last.
pub fn columns(proved: &str) -> [&str; 5] {
    [
        "Heap of indexes, ns",
        "Keyed heap, ns",
        "`BinaryHeap`, ns",
        proved,
        "To heap of indexes",
    ]
}

/// What stands at the head of a row.
pub fn what(count: usize, step: u64) -> String {
    format!("{count}, {step}")
}

/// Fires `fires` times, `step` nanoseconds apart.
#[derive(Clone, Copy)]
pub struct Fires<'a> {
    pub intervals: &'a [u64],
    pub step: u64,
    pub fires: u64,
}

struct Cyclic {
    moment: u64,
    interval: u64,
    id: u64,
}

/// The kernel's form: the heap holds indexes, and each comparison looks two cyclics up.
fn downheap(heap: &mut [u16], cyclics: &[Cyclic]) {
    let before = |a: u16, b: u16| {
        let (a, b) = (&cyclics[a as usize], &cyclics[b as usize]);
        a.moment < b.moment || a.moment == b.moment && a.id < b.id
    };
    let mut current = 0;
    loop {
        let left = 2 * current + 1;
        if left >= heap.len() {
            return;
        }
        let right = left + 1;
        let child = if right < heap.len() && before(heap[right], heap[left]) {
            right
        } else {
            left
        };
        if !before(heap[child], heap[current]) {
            return;
        }
        heap.swap(current, child);
        current = child;
    }
}

impl<'a> Fires<'a> {
    /// As many fires as make some 280,000 expirations.
    pub fn new(intervals: &'a [u64], step: u64) -> Fires<'a> {
        let fires = 512_000 * 256 / (intervals.len() as u64 * step);
        Fires {
            intervals,
            step,
            fires,
        }
    }

    /// How many expirations the fires make.
    pub fn expirations(self) -> u64 {
        let mut expirations = 0;
        self.by_indexes(|_| expirations += 1);
        expirations
    }

    pub fn by_indexes(self, mut handler: impl FnMut(u64)) {
        let mut cyclics: Vec<Cyclic> = (1..)
            .zip(self.intervals)
            .map(|(id, interval)| Cyclic {
                moment: *interval,
                interval: *interval,
                id,
            })
            .collect();
        let mut heap: Vec<u16> = (0..self.intervals.len() as u16).collect();
        heap.sort_by_key(|i| (cyclics[*i as usize].moment, cyclics[*i as usize].id));
        let mut now = 0;
        for _ in 0..self.fires {
            now += self.step;
            while cyclics[heap[0] as usize].moment <= now {
                let root = &mut cyclics[heap[0] as usize];
                handler(root.id);
                root.moment += root.interval;
                downheap(&mut heap, &cyclics);
            }
        }
    }

    pub fn by_keys(self, mut handler: impl FnMut(u64)) {
        let mut heap: Vec<Keyed> = self
            .intervals
            .iter()
            .enumerate()
            .map(|(index, interval)| Keyed {
                moment: *interval,
                id: index as u64 + 1,
                index,
            })
            .collect();
        heap.sort_by_key(Keyed::number);
        let mut now = 0;
        for _ in 0..self.fires {
            now += self.step;
            while heap[0].moment <= now {
                let Keyed { moment, id, index } = heap[0];
                handler(id);
                sift(
                    &mut heap,
                    Keyed {
                        moment: moment + self.intervals[index],
                        id,
                        index,
                    },
                );
            }
        }
    }

    pub fn by_library(self, mut handler: impl FnMut(u64)) {
        let mut heap: BinaryHeap<Reverse<(u64, u64)>> = (1..)
            .zip(self.intervals)
            .map(|(id, interval)| Reverse((*interval, id)))
            .collect();
        let mut now = 0;
        for _ in 0..self.fires {
            now += self.step;
            while let Some(mut root) = heap.peek_mut() {
                let Reverse((moment, id)) = *root;
                if moment > now {
                    break;
                }
                handler(id);
                *root = Reverse((moment + self.intervals[id as usize - 1], id));
            }
        }
    }
}

#[derive(Clone, Copy)]
struct Keyed {
    moment: u64,
    id: u64,
    index: usize,
}

impl Keyed {
    fn number(&self) -> u128 {
        u128::from(self.moment) << 64 | u128::from(self.id)
    }
}

fn sift(heap: &mut [Keyed], key: Keyed) {
    let len = heap.len();
    let mut hole = 0;
    while hole < (len - 1) / 2 {
        let left = 2 * hole + 1;
        let child = left + (heap[left + 1].number() < heap[left].number()) as usize;
        heap[hole] = heap[child];
        hole = child;
    }
    if hole < len / 2 {
        heap[hole] = heap[2 * hole + 1];
        hole = 2 * hole + 1;
    }
    while hole > 0 {
        let parent = (hole - 1) / 2;
        if key.number() >= heap[parent].number() {
            break;
        }
        heap[hole] = heap[parent];
        hole = parent;
    }
    heap[hole] = key;
}

/// Intervals spread evenly over the logarithm from 100 to 10000, always the same.
pub fn spread(count: usize) -> Vec<u64> {
    let mut x = 0x9E37_79B9_7F4A_7C15u64;
    let mut next = || {
        x ^= x << 13;
        x ^= x >> 7;
        x ^= x << 17;
        (x >> 11) as f64 / (1u64 << 53) as f64
    };
    (0..count)
        .map(|_| (100.0 * 100f64.powf(next())) as u64)
        .collect()
}
