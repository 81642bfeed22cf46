// Logs of Windows 8.1 and later: the same tests, one pass of hashing to a call, and one pass over all versions of all pages.
use crate::check::{Flaw, Res, Style, stored, usable};

// Marvin32: the two words, and one more word mixed in.
#[derive(Clone, Copy)]
pub struct Marvin(u32, u32);

impl Marvin {
    pub fn new() -> Self {
        Marvin(0x7A4E_55C5, 0x82EF_4D88)
    }
    #[inline]
    pub fn mix(self, word: u32) -> Self {
        let low = self.0.wrapping_add(word);
        let high = self.1 ^ low;
        let low = low.rotate_left(20).wrapping_add(high);
        let high = high.rotate_left(9) ^ low;
        let low = low.rotate_left(27).wrapping_add(high);
        Marvin(low, high.rotate_left(19))
    }
    pub fn end(self, last: u32) -> u64 {
        let m = self.mix(last).mix(0);
        (m.1 as u64) << 32 | m.0 as u64
    }
}

// What one pass over the log tells: how many entries count, where they end, the last bins size and the largest.
#[derive(Clone, Copy)]
pub struct Chain {
    pub entries: usize,
    pub end: usize,
    bins: u32,
    largest: u32,
}

fn bins_size(n: u32) -> bool {
    n != 0 && n % 4096 == 0 && n <= 2_147_479_552
}

fn u64_at<S: Style>(l: &[u8], i: usize) -> u64 {
    S::u32_at(l, i) as u64 | (S::u32_at(l, i + 4) as u64) << 32
}

fn reference<S: Style>(e: &[u8], i: usize) -> (usize, usize) {
    (S::u32_at(e, 40 + 8 * i) as usize, S::u32_at(e, 44 + 8 * i) as usize)
}

// Aligned, inside the bins, apart from all before: at or past every end so far, or else compared with each.
fn placed<S: Style>(e: &[u8], count: usize, bins: usize) -> bool {
    let mut ends = 0;
    for i in 0..count {
        let (o, n) = reference::<S>(e, i);
        if o % 512 != 0 || n % 512 != 0 || bins < o + n {
            return false;
        }
        let apart = |j| {
            let (p, m) = reference::<S>(e, j);
            m == 0 || p + m <= o || o + n <= p
        };
        if n > 0 && o < ends && !(0..i).all(apart) {
            return false;
        }
        if n > 0 {
            ends = ends.max(o + n);
        }
    }
    true
}

// The size of the entry at a place, where it counts.
fn entry<S: Style>(l: &[u8], at: usize, number: u64) -> Option<usize> {
    if l.len() < at + 40 || &l[at..at + 4] != b"HvLE" {
        return None;
    }
    let size = S::u32_at(l, at + 4) as usize;
    if size == 0 || size % 512 != 0 || l.len() < at + size {
        return None;
    }
    let e = &l[at..at + size];
    if u64_at::<S>(e, 24) != S::marvin(&e[40..]) || u64_at::<S>(e, 32) != S::marvin(&e[..32]) {
        return None;
    }
    let (bins, count) = (S::u32_at(e, 16), S::u32_at(e, 20) as usize);
    if S::u32_at(e, 12) as u64 != number || !bins_size(bins) || size < 40 + 8 * count {
        return None;
    }
    let bytes: usize = (0..count).map(|i| reference::<S>(e, i).1).sum();
    (40 + 8 * count + bytes <= size && placed::<S>(e, count, bins as usize)).then_some(size)
}

pub fn chain<S: Style>(l: &[u8]) -> Res<Chain> {
    if l.len() < 512 || usable::<S>(&l[..512], &[6]).is_err() || S::u32_at(l, 4) != S::u32_at(l, 8) {
        return Err(Flaw(21, 0));
    }
    let mut c = Chain { entries: 0, end: 512, bins: 0, largest: 0 };
    while let Some(size) = entry::<S>(l, c.end, S::u32_at(l, 4) as u64 + c.entries as u64) {
        let bins = S::u32_at(l, c.end + 16);
        c = Chain { entries: c.entries + 1, end: c.end + size, bins, largest: c.largest.max(bins) };
    }
    if c.entries == 0 { Err(Flaw(22, 0)) } else { Ok(c) }
}

// Every version of every page, in order: its page and its place.
fn versions<S: Style>(l: &[u8], c: Chain, mut f: impl FnMut(usize, usize)) {
    let mut at = 512;
    while at < c.end {
        let count = S::u32_at(l, at + 20) as usize;
        let mut place = at + 40 + 8 * count;
        for i in 0..count {
            let (o, n) = reference::<S>(&l[at..], i);
            for k in 0..n / 512 {
                f(o / 512 + k, place + 512 * k);
            }
            place += n;
        }
        at += S::u32_at(l, at + 4) as usize;
    }
}

fn fill<S: Style>(l: &[u8], c: Chain, map: &mut [u8]) -> usize {
    S::clear(map);
    let mut pages = 0;
    versions::<S>(l, c, |p, _| {
        pages += (map[p / 8] >> (p % 8) & 1 == 0) as usize;
        map[p / 8] |= 1 << (p % 8);
    });
    pages
}

// The tests that every call with a hive makes; None for a clean hive.
fn tests<S: Style>(h: &[u8], l: &[u8]) -> Res<Option<Chain>> {
    if h.len() < 4096 {
        return Err(Flaw(1, 0));
    }
    let sound = usable::<S>(&h[..512], &[0]).is_ok();
    if sound && S::u32_at(h, 4) == S::u32_at(h, 8) {
        return Ok(None);
    }
    let c = chain::<S>(l)?;
    if h.len() < 4096 + c.largest as usize {
        return Err(Flaw(24, 0));
    }
    let agree = if sound {
        S::u32_at(h, 8) == S::u32_at(l, 4)
    } else {
        let mut all = h[4116..4124] == l[12..20];
        versions::<S>(l, c, |p, at| all &= p != 0 || l[at + 20..at + 28] == l[12..20]);
        all
    };
    if agree { Ok(Some(c)) } else { Err(Flaw(25, 0)) }
}

pub fn start<S: Style>(h: &[u8], l: &[u8]) -> Res<Option<usize>> {
    Ok(tests::<S>(h, l)?.map(|c| fill::<S>(l, c, &mut vec![0; c.largest as usize / 4096])))
}

pub fn all<S: Style>(h: &mut [u8], l: &[u8]) -> Res<bool> {
    let Some(c) = tests::<S>(h, l)? else { return Ok(false) };
    versions::<S>(l, c, |p, at| S::copy(&l[at..at + 512], &mut h[4096 + 512 * p..4096 + 512 * p + 512]));
    Ok(true)
}

pub fn mark<S: Style>(l: &[u8], map: &mut [u8]) -> Res<usize> {
    let c = chain::<S>(l)?;
    let n = c.largest as usize / 4096;
    if map.len() < n { Err(Flaw(8, 0)) } else { Ok(fill::<S>(l, c, &mut map[..n])) }
}

// Each version sets or clears its page's bit; where one is left, a page is not its last version.
pub fn close<S: Style>(h: &mut [u8], l: &[u8]) -> Res<bool> {
    let Some(c) = tests::<S>(h, l)? else { return Ok(false) };
    let mut differs = vec![0u8; c.largest as usize / 4096];
    versions::<S>(l, c, |p, at| {
        let bit = 1 << (p % 8);
        if S::same(&h[4096 + 512 * p..4096 + 512 * p + 512], &l[at..at + 512]) {
            differs[p / 8] &= !bit;
        } else {
            differs[p / 8] |= bit;
        }
    });
    if differs.iter().any(|&b| b != 0) {
        return Err(Flaw(27, 0));
    }
    let last = S::u32_at(l, 4) + (c.entries - 1) as u32;
    S::copy(&l[..512], &mut h[..512]);
    for (at, n) in [(4, last), (8, last), (28, 0), (40, c.bins)] {
        h[at..at + 4].copy_from_slice(&n.to_le_bytes());
    }
    let x = stored(S::xor(&h[..512]));
    h[508..512].copy_from_slice(&x.to_le_bytes());
    Ok(true)
}
