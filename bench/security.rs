// The security items, with the same algorithm: batches of them in a table by chains on the stack, and a pass over the tree for each batch.
use crate::check::{Flaw, Report, Res, Style, cell, survey};

const ITEMS: usize = 2048;
const CHAINS: usize = 2039;

struct Table {
    items: [u32; ITEMS],
    older: [u32; ITEMS],
    heads: [u32; CHAINS],
    counts: [u32; ITEMS],
    n: usize,
}

impl Table {
    fn new() -> Self {
        Table { items: [0; ITEMS], older: [0; ITEMS], heads: [0; CHAINS], counts: [0; ITEMS], n: 0 }
    }
    #[inline]
    fn bucket(o: u32) -> usize {
        (o as usize + o as usize / 8) % CHAINS
    }
    fn insert(&mut self, o: u32) {
        let head = &mut self.heads[Self::bucket(o)];
        self.items[self.n] = o;
        self.older[self.n] = *head;
        self.n += 1;
        *head = self.n as u32;
    }
    // One key more for an item that stands here.
    #[inline]
    fn count(&mut self, o: u32) {
        let mut p = self.heads[Self::bucket(o)] as usize;
        while p != 0 {
            if self.items[p - 1] == o {
                self.counts[p - 1] += 1;
                return;
            }
            p = self.older[p - 1] as usize;
        }
    }
}

fn item<'a, S: Style>(bins: &'a [u8], map: &[u8], o: u32) -> Option<&'a [u8]> {
    cell::<S>(bins, Some(map), o).ok().filter(|d| d.len() >= 20 && &d[0..2] == b"sk")
}

enum Batch {
    Closed,
    Broken(u32),
    More(u32),
}

// Takes items into the table, from one on, as long as their room and their links are right.
fn gather<S: Style>(bins: &[u8], map: &[u8], first: u32, from: u32, t: &mut Table) -> Batch {
    let mut at = from;
    while t.n < ITEMS {
        let Some(d) = item::<S>(bins, map, at) else { return Batch::Broken(at) };
        let next = S::u32_at(d, 4);
        let joined = 20 + S::u32_at(d, 16) as usize <= d.len() && item::<S>(bins, map, next).is_some_and(|x| S::u32_at(x, 8) == at);
        if !joined {
            return Batch::Broken(at);
        }
        t.insert(at);
        if next == first {
            return Batch::Closed;
        }
        at = next;
    }
    Batch::More(at)
}

// Each key of a tree that was accepted, with its security offset, until f says that it is enough. No test is repeated.
fn each_key<S: Style>(bins: &[u8], at: u32, f: &mut impl FnMut(u32, u32) -> bool) -> bool {
    let k = &bins[at as usize + 4..];
    if f(at, S::u32_at(k, 44)) {
        return true;
    }
    S::u32_at(k, 20) != 0 && each_in_list::<S>(bins, S::u32_at(k, 28), f)
}

fn each_in_list<S: Style>(bins: &[u8], list: u32, f: &mut impl FnMut(u32, u32) -> bool) -> bool {
    let r = &bins[list as usize + 4..];
    let (index, mut over) = (&r[0..2] == b"ri", false);
    let step = if r[1] == b'i' { 4 } else { 8 };
    let _ = S::each(r, step, |o, _| {
        over = if index { each_in_list::<S>(bins, o, f) } else { each_key::<S>(bins, o, f) };
        Ok(over)
    });
    over
}

pub fn security<S: Style>(bins: &[u8], map: &mut [u8], root: u32, keys: u64) -> Res<()> {
    let first = S::u32_at(bins, root as usize + 48);
    if item::<S>(bins, map, first).is_none() {
        return Err(Flaw(28, root));
    }
    let (mut from, mut sum) = (first, 0);
    loop {
        let mut t = Table::new();
        let batch = gather::<S>(bins, map, first, from, &mut t);
        each_key::<S>(bins, root, &mut |_, o| {
            t.count(o);
            false
        });
        for (&o, &n) in t.items[..t.n].iter().zip(&t.counts) {
            if S::u32_at(bins, o as usize + 16) != n {
                return Err(Flaw(28, o));
            }
            sum += n as u64;
        }
        match batch {
            Batch::Closed if sum == keys => return Ok(()),
            Batch::Closed => return Err(first_off::<S>(bins, map, root, first)),
            Batch::Broken(o) => return Err(Flaw(28, o)),
            Batch::More(next) => from = next,
        }
    }
}

// The first key whose item is not on the ring. The map has the ring's items for a while, and then all cells in use again.
fn first_off<S: Style>(bins: &[u8], map: &mut [u8], root: u32, first: u32) -> Flaw {
    S::clear(map);
    let mut at = first;
    loop {
        map[at as usize / 64] |= 1 << (at / 8 % 8);
        at = S::u32_at(bins, at as usize + 8);
        if at == first {
            break;
        }
    }
    let mut off = root;
    each_key::<S>(bins, root, &mut |k, o| {
        off = k;
        o % 8 != 0 || o as usize >= bins.len() || map[o as usize / 64] >> (o / 8 % 8) & 1 == 0
    });
    S::clear(map);
    let _ = survey::<S>(bins, |cell| map[cell / 64] |= 1 << (cell / 8 % 8), &mut Report::default());
    Flaw(28, off)
}
