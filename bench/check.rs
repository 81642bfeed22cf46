// The baseline: the same algorithms in Rust. What differs by style stands in the trait: `Plain` is a translation that indexes byte by byte,
// `Idiom` uses from_le_bytes, chunks_exact, iterators and slice copies.
use crate::namesakes::{fits_hint, namesakes};
use crate::new_log::Marvin;
use crate::security::security;
use std::cmp::Ordering;

#[derive(Clone, Copy, PartialEq, Debug)]
pub struct Flaw(pub u32, pub u32);
pub type Res<T> = Result<T, Flaw>;

pub trait Style {
    fn u16_at(s: &[u8], i: usize) -> u16;
    fn u32_at(s: &[u8], i: usize) -> u32;
    fn xor(s: &[u8]) -> u32;
    fn unit(name: &[u8], wide: bool, i: usize) -> u16;
    fn compare(a: &[u8], aw: bool, b: &[u8], bw: bool) -> Ordering;
    fn hash(name: &[u8], wide: bool) -> u32;
    fn called(name: &[u8], wide: bool, want: &[u16]) -> bool;
    fn order(name: &[u8], wide: bool, want: &[u16]) -> Ordering;
    fn has_backslash(name: &[u8], wide: bool) -> bool;
    fn ones(map: &[u8], page: usize) -> usize;
    fn copy(from: &[u8], to: &mut [u8]);
    fn same(a: &[u8], b: &[u8]) -> bool;
    fn clear(map: &mut [u8]);
    fn marvin(m: &[u8]) -> u64;
    fn each(list: &[u8], step: usize, f: impl FnMut(u32, u32) -> Res<bool>) -> Res<()>;
    fn signed(cell: &[u8], f: impl FnMut(usize) -> bool) -> bool;
}

#[inline]
pub fn upper(c: u16) -> u16 {
    if c < 97 {
        return c;
    }
    match c {
        97..=122 | 0xE0..=0xF6 | 0xF8..=0xFE => c - 32,
        0xFF => 0x178,
        _ => c,
    }
}

// Whether two codes have one capital: most that are compared are equal, and need none.
#[inline]
fn same_letter(x: u16, y: u16) -> bool {
    x == y || upper(x) == upper(y)
}

pub struct Plain;
impl Style for Plain {
    fn u16_at(s: &[u8], i: usize) -> u16 {
        s[i] as u16 | (s[i + 1] as u16) << 8
    }
    fn u32_at(s: &[u8], i: usize) -> u32 {
        s[i] as u32 | (s[i + 1] as u32) << 8 | (s[i + 2] as u32) << 16 | (s[i + 3] as u32) << 24
    }
    fn xor(s: &[u8]) -> u32 {
        let mut x = 0;
        let mut i = 0;
        while i < 508 {
            x ^= Self::u32_at(s, i);
            i += 4;
        }
        x
    }
    fn unit(name: &[u8], wide: bool, i: usize) -> u16 {
        if wide { Self::u16_at(name, 2 * i) } else { name[i] as u16 }
    }
    fn compare(a: &[u8], aw: bool, b: &[u8], bw: bool) -> Ordering {
        let (n, m) = (count(a, aw), count(b, bw));
        let mut i = 0;
        while i < n && i < m {
            let (x, y) = (Self::unit(a, aw, i), Self::unit(b, bw, i));
            if !same_letter(x, y) {
                return if upper(x) < upper(y) { Ordering::Less } else { Ordering::Greater };
            }
            i += 1;
        }
        if n == m { Ordering::Equal } else if n < m { Ordering::Less } else { Ordering::Greater }
    }
    fn hash(name: &[u8], wide: bool) -> u32 {
        let mut h = 0u32;
        let mut i = 0;
        while i < count(name, wide) {
            h = h.wrapping_mul(37).wrapping_add(upper(Self::unit(name, wide, i)) as u32);
            i += 1;
        }
        h
    }
    fn called(name: &[u8], wide: bool, want: &[u16]) -> bool {
        if count(name, wide) != want.len() {
            return false;
        }
        let mut i = 0;
        while i < want.len() {
            if !same_letter(Self::unit(name, wide, i), want[i]) {
                return false;
            }
            i += 1;
        }
        true
    }
    fn order(name: &[u8], wide: bool, want: &[u16]) -> Ordering {
        let n = count(name, wide);
        let mut i = 0;
        while i < n && i < want.len() {
            let x = Self::unit(name, wide, i);
            if !same_letter(x, want[i]) {
                return if upper(x) < upper(want[i]) { Ordering::Less } else { Ordering::Greater };
            }
            i += 1;
        }
        if n == want.len() { Ordering::Equal } else if n < want.len() { Ordering::Less } else { Ordering::Greater }
    }
    fn has_backslash(name: &[u8], wide: bool) -> bool {
        let mut i = 0;
        while i < count(name, wide) {
            if Self::unit(name, wide, i) == 92 {
                return true;
            }
            i += 1;
        }
        false
    }
    fn ones(map: &[u8], page: usize) -> usize {
        let mut n = 0;
        let mut i = 0;
        while i < page {
            n += (map[i / 8] >> (i % 8) & 1) as usize;
            i += 1;
        }
        n
    }
    fn copy(from: &[u8], to: &mut [u8]) {
        let mut i = 0;
        while i < from.len() {
            to[i] = from[i];
            i += 1;
        }
    }
    fn same(a: &[u8], b: &[u8]) -> bool {
        let mut i = 0;
        while i < a.len() {
            if a[i] != b[i] {
                return false;
            }
            i += 1;
        }
        true
    }
    fn clear(map: &mut [u8]) {
        let mut i = 0;
        while i < map.len() {
            map[i] = 0;
            i += 1;
        }
    }
    fn marvin(m: &[u8]) -> u64 {
        let mut state = Marvin::new();
        let mut i = 0;
        while i + 4 <= m.len() {
            state = state.mix(Self::u32_at(m, i));
            i += 4;
        }
        let (mut last, mut by) = (0, 0);
        while i < m.len() {
            last |= (m[i] as u32) << by;
            by += 8;
            i += 1;
        }
        state.end(last | 0x80 << by)
    }
    fn each(list: &[u8], step: usize, mut f: impl FnMut(u32, u32) -> Res<bool>) -> Res<()> {
        let n = Self::u16_at(list, 2) as usize;
        let mut i = 0;
        while i < n {
            let hash = if step == 8 { Self::u32_at(list, 8 + 8 * i) } else { 0 };
            if f(Self::u32_at(list, 4 + step * i), hash)? {
                return Ok(());
            }
            i += 1;
        }
        Ok(())
    }
    fn signed(cell: &[u8], mut f: impl FnMut(usize) -> bool) -> bool {
        let mut i = 0;
        while i < cell.len() {
            if (cell[i + 4] == b'n' || cell[i + 4] == b'v') && cell[i + 5] == b'k' && f(i) {
                return true;
            }
            i += 8;
        }
        false
    }
}

pub struct Idiom;
impl Style for Idiom {
    fn u16_at(s: &[u8], i: usize) -> u16 {
        u16::from_le_bytes(s[i..i + 2].try_into().unwrap())
    }
    fn u32_at(s: &[u8], i: usize) -> u32 {
        u32::from_le_bytes(s[i..i + 4].try_into().unwrap())
    }
    fn xor(s: &[u8]) -> u32 {
        s[..508].chunks_exact(4).fold(0, |x, w| x ^ u32::from_le_bytes(w.try_into().unwrap()))
    }
    fn unit(name: &[u8], wide: bool, i: usize) -> u16 {
        if wide { Self::u16_at(name, 2 * i) } else { name[i] as u16 }
    }
    fn compare(a: &[u8], aw: bool, b: &[u8], bw: bool) -> Ordering {
        match (aw, bw) {
            (false, false) => order(narrow(a), narrow(b)),
            (false, true) => order(narrow(a), wide(b)),
            (true, false) => order(wide(a), narrow(b)),
            (true, true) => order(wide(a), wide(b)),
        }
    }
    fn hash(name: &[u8], w: bool) -> u32 {
        let mix = |h: u32, c: u16| h.wrapping_mul(37).wrapping_add(upper(c) as u32);
        if w { wide(name).fold(0, mix) } else { narrow(name).fold(0, mix) }
    }
    fn called(name: &[u8], w: bool, want: &[u16]) -> bool {
        let same = |(x, &y): (u16, &u16)| same_letter(x, y);
        count(name, w) == want.len() && if w { wide(name).zip(want).all(same) } else { narrow(name).zip(want).all(same) }
    }
    fn order(name: &[u8], w: bool, want: &[u16]) -> Ordering {
        let want = want.iter().copied();
        if w { order(wide(name), want) } else { order(narrow(name), want) }
    }
    fn has_backslash(name: &[u8], w: bool) -> bool {
        if w { name.chunks_exact(2).any(|c| c == [92, 0]) } else { name.contains(&92) }
    }
    fn ones(map: &[u8], page: usize) -> usize {
        let whole: usize = map[..page / 8].iter().map(|b| b.count_ones() as usize).sum();
        let rest = page % 8;
        whole + if rest > 0 { (map[page / 8] & ((1 << rest) - 1)).count_ones() as usize } else { 0 }
    }
    fn copy(from: &[u8], to: &mut [u8]) {
        to[..from.len()].copy_from_slice(from);
    }
    fn same(a: &[u8], b: &[u8]) -> bool {
        a == b
    }
    fn clear(map: &mut [u8]) {
        map.fill(0);
    }
    fn marvin(m: &[u8]) -> u64 {
        let words = m.chunks_exact(4);
        let last = words.remainder().iter().rev().fold(0x80, |x, &b| x << 8 | b as u32);
        words.fold(Marvin::new(), |state, w| state.mix(u32::from_le_bytes(w.try_into().unwrap()))).end(last)
    }
    fn each(list: &[u8], step: usize, mut f: impl FnMut(u32, u32) -> Res<bool>) -> Res<()> {
        let n = Self::u16_at(list, 2) as usize;
        for e in list[4..].chunks_exact(step).take(n) {
            let hash = if step == 8 { Self::u32_at(e, 4) } else { 0 };
            if f(Self::u32_at(e, 0), hash)? {
                return Ok(());
            }
        }
        Ok(())
    }
    fn signed(cell: &[u8], mut f: impl FnMut(usize) -> bool) -> bool {
        cell.chunks_exact(8).enumerate().any(|(i, c)| (&c[4..6] == b"nk" || &c[4..6] == b"vk") && f(8 * i))
    }
}

fn narrow(s: &[u8]) -> impl ExactSizeIterator<Item = u16> + '_ {
    s.iter().map(|&c| c as u16)
}

fn wide(s: &[u8]) -> impl ExactSizeIterator<Item = u16> + '_ {
    s.chunks_exact(2).map(|c| u16::from_le_bytes([c[0], c[1]]))
}

// The first two codes with two capitals decide; else the shorter name is before.
fn order(a: impl ExactSizeIterator<Item = u16>, b: impl ExactSizeIterator<Item = u16>) -> Ordering {
    let lengths = a.len().cmp(&b.len());
    let apart = a.zip(b).find(|&(x, y)| !same_letter(x, y));
    apart.map_or(lengths, |(x, y)| upper(x).cmp(&upper(y)))
}

pub fn count(name: &[u8], wide: bool) -> usize {
    if wide { name.len() / 2 } else { name.len() }
}

// A XOR as it is stored at 508.
pub fn stored(xor: u32) -> u32 {
    match xor {
        0 => 1,
        0xFFFF_FFFF => 0xFFFF_FFFE,
        x => x,
    }
}

pub fn usable<S: Style>(s: &[u8], types: &[u32]) -> Res<()> {
    if &s[0..4] != b"regf" {
        return Err(Flaw(2, 0));
    }
    if stored(S::xor(s)) != S::u32_at(s, 508) {
        return Err(Flaw(3, 0));
    }
    if S::u32_at(s, 20) != 1 || !(3..=5).contains(&S::u32_at(s, 24)) || !types.contains(&S::u32_at(s, 28)) || S::u32_at(s, 32) != 1 || S::u32_at(s, 44) != 1 {
        return Err(Flaw(4, 0));
    }
    let n = S::u32_at(s, 40);
    if n == 0 || n % 4096 != 0 || n > 2147479552 { Err(Flaw(5, 0)) } else { Ok(()) }
}

pub fn base<S: Style>(h: &[u8]) -> Res<&[u8]> {
    if h.len() < 4096 {
        return Err(Flaw(1, 0));
    }
    usable::<S>(&h[..512], &[0])?;
    let n = S::u32_at(h, 40) as usize;
    if h.len() < 4096 + n {
        return Err(Flaw(6, 0));
    }
    if S::u32_at(h, 4) != S::u32_at(h, 8) {
        return Err(Flaw(7, 0));
    }
    Ok(&h[4096..4096 + n])
}

#[derive(Default, PartialEq, Debug, Clone, Copy)]
pub struct Report {
    pub bins: u64,
    pub keys: u64,
    pub values: u64,
    pub used: u64,
    pub free: u64,
}

pub fn survey<S: Style>(bins: &[u8], mut mark: impl FnMut(usize), r: &mut Report) -> Res<()> {
    let mut at = 0;
    while at < bins.len() {
        let n = S::u32_at(bins, at + 8) as usize;
        if &bins[at..at + 4] != b"hbin" || S::u32_at(bins, at + 4) as usize != at || n == 0 || n % 4096 != 0 || bins.len() - at < n {
            return Err(Flaw(9, at as u32));
        }
        let end = at + n;
        let mut cell = at + 32;
        while cell < end {
            let size = S::u32_at(bins, cell) as i32;
            let n = size.unsigned_abs() as usize;
            if n == 0 || n % 8 != 0 || n > end - cell {
                return Err(Flaw(10, cell as u32));
            }
            if size < 0 {
                mark(cell);
                r.used += n as u64;
            } else {
                r.free += n as u64;
            }
            cell += n;
        }
        r.bins += 1;
        at = end;
    }
    Ok(())
}

// An offset names a cell by the map, or by its own header.
pub fn cell<'a, S: Style>(bins: &'a [u8], map: Option<&[u8]>, o: u32) -> Res<&'a [u8]> {
    let at = o as usize;
    if at % 8 != 0 || at < 32 || at + 8 > bins.len() {
        return Err(Flaw(11, o));
    }
    if let Some(m) = map {
        if m[at / 64] >> (at / 8 % 8) & 1 == 0 {
            return Err(Flaw(11, o));
        }
    }
    let size = S::u32_at(bins, at) as i32;
    let n = size.unsigned_abs() as usize;
    if size >= 0 || n % 8 != 0 || n > bins.len() - at {
        return Err(Flaw(11, o));
    }
    Ok(&bins[at + 4..at + n])
}

pub struct Key<'a> {
    pub r: &'a [u8],
    pub name: &'a [u8],
    pub wide: bool,
}

pub fn key<'a, S: Style>(bins: &'a [u8], map: Option<&[u8]>, o: u32) -> Res<Key<'a>> {
    let r = cell::<S>(bins, map, o)?;
    if r.len() < 76 || &r[0..2] != b"nk" {
        return Err(Flaw(12, o));
    }
    let len = S::u16_at(r, 72) as usize;
    let wide = S::u16_at(r, 2) & 0x20 == 0;
    if r.len() < 76 + len || wide && len % 2 != 0 {
        return Err(Flaw(12, o));
    }
    let name = &r[76..76 + len];
    let n = count(name, wide);
    if n == 0 || n > 255 || S::has_backslash(name, wide) {
        return Err(Flaw(12, o));
    }
    Ok(Key { r, name, wide })
}

pub fn leaf<'a, S: Style>(bins: &'a [u8], map: Option<&[u8]>, o: u32) -> Res<(&'a [u8], usize)> {
    let r = cell::<S>(bins, map, o)?;
    if r.len() < 4 {
        return Err(Flaw(12, o));
    }
    let step = match &r[0..2] {
        b"li" => 4,
        b"lf" | b"lh" => 8,
        _ => return Err(Flaw(12, o)),
    };
    let n = S::u16_at(r, 2) as usize;
    if n == 0 || r.len() < 4 + step * n { Err(Flaw(12, o)) } else { Ok((r, step)) }
}

// The leaves below a list, in order.
fn each_leaf<S: Style>(bins: &[u8], map: Option<&[u8]>, o: u32, mut f: impl FnMut(&[u8], usize) -> Res<bool>) -> Res<()> {
    let r = cell::<S>(bins, map, o)?;
    if r.len() >= 4 && &r[0..2] == b"ri" {
        let n = S::u16_at(r, 2) as usize;
        if n == 0 || r.len() < 4 + 4 * n {
            return Err(Flaw(12, o));
        }
        return S::each(r, 4, |l, _| {
            let (r, step) = leaf::<S>(bins, map, l)?;
            f(r, step)
        });
    }
    let (r, step) = leaf::<S>(bins, map, o)?;
    f(r, step)?;
    Ok(())
}

pub struct Data<'a> {
    pub one: &'a [u8],
    pub segments: Option<(&'a [u8], usize)>,
    pub len: usize,
}

pub fn data<'a, S: Style>(bins: &'a [u8], map: Option<&[u8]>, minor: u32, r: &'a [u8]) -> Res<Data<'a>> {
    let size = S::u32_at(r, 4);
    if size >= 0x8000_0000 {
        let len = (size & 0x7fff_ffff) as usize;
        return Ok(Data { one: &r[8..8 + len], segments: None, len });
    }
    let len = size as usize;
    let o = S::u32_at(r, 8);
    if len == 0 {
        return Ok(Data { one: &[], segments: None, len });
    }
    let c = cell::<S>(bins, map, o)?;
    if len <= 16344 || minor < 4 {
        if c.len() < len {
            return Err(Flaw(12, o));
        }
        return Ok(Data { one: &c[..len], segments: None, len });
    }
    let count = len.div_ceil(16344);
    if c.len() < 8 || &c[0..2] != b"db" || S::u16_at(c, 2) as usize != count {
        return Err(Flaw(12, o));
    }
    let lo = S::u32_at(c, 4);
    let list = cell::<S>(bins, map, lo)?;
    if list.len() < 4 * count {
        return Err(Flaw(12, lo));
    }
    for i in 0..count {
        let s = S::u32_at(list, 4 * i);
        if cell::<S>(bins, map, s)?.len() < (len - 16344 * i).min(16344) {
            return Err(Flaw(12, s));
        }
    }
    Ok(Data { one: &[], segments: Some((list, count)), len })
}

pub fn value<'a, S: Style>(bins: &'a [u8], map: Option<&[u8]>, o: u32) -> Res<(&'a [u8], &'a [u8], bool)> {
    let r = cell::<S>(bins, map, o)?;
    if r.len() < 20 || &r[0..2] != b"vk" {
        return Err(Flaw(12, o));
    }
    let len = S::u16_at(r, 2) as usize;
    let wide = S::u16_at(r, 16) & 1 == 0;
    let size = S::u32_at(r, 4);
    let fits = if size >= 0x8000_0000 { size - 0x8000_0000 <= 4 } else { size <= 1_048_576 };
    if r.len() < 20 + len || wide && len % 2 != 0 || count(&r[20..20 + len], wide) > 16383 || !fits {
        return Err(Flaw(12, o));
    }
    Ok((r, &r[20..20 + len], wide))
}

pub fn value_list<'a, S: Style>(bins: &'a [u8], map: Option<&[u8]>, k: &Key) -> Res<(&'a [u8], usize)> {
    let n = S::u32_at(k.r, 36) as usize;
    if n == 0 {
        return Ok((&[], 0));
    }
    let o = S::u32_at(k.r, 40);
    let list = cell::<S>(bins, map, o)?;
    if list.len() < 4 * n { Err(Flaw(12, o)) } else { Ok((list, n)) }
}

// What stands beside an element's offset.
#[derive(Clone, Copy)]
enum Beside {
    Nothing,
    Hash(u32),
    Hint(u32),
}

impl Beside {
    fn fits<S: Style>(self, k: &Key) -> bool {
        match self {
            Beside::Nothing => true,
            Beside::Hash(h) => S::hash(k.name, k.wide) == h,
            Beside::Hint(h) => fits_hint::<S>(k.name, k.wide, h),
        }
    }
}

struct Walk<'a> {
    bins: &'a [u8],
    map: &'a [u8],
    minor: u32,
    root: u32,
    keys: u64,
    values: u64,
}

impl Walk<'_> {
    #[allow(clippy::too_many_arguments)]
    fn key<S: Style>(&mut self, at: u32, beside: Beside, parent: Option<u32>, elder: Option<u32>, levels: u32) -> Res<()> {
        let (bins, map) = (self.bins, Some(self.map));
        let k = key::<S>(bins, map, at)?;
        if let Some(p) = parent {
            if S::u32_at(k.r, 16) != p || at == self.root {
                return Err(Flaw(14, at));
            }
        }
        if let Some(e) = elder {
            let b = key::<S>(bins, None, e)?;
            if S::compare(b.name, b.wide, k.name, k.wide) != Ordering::Less {
                return Err(Flaw(13, at));
            }
        }
        if !beside.fits::<S>(&k) {
            return Err(Flaw(13, at));
        }
        if levels == 0 {
            return Err(Flaw(15, at));
        }
        let (list, n) = value_list::<S>(bins, map, &k)?;
        for i in 0..n {
            let (r, _, _) = value::<S>(bins, map, S::u32_at(list, 4 * i))?;
            data::<S>(bins, map, self.minor, r)?;
        }
        namesakes::<S>(bins, list, n)?;
        self.keys += 1;
        self.values += n as u64;
        let below = S::u32_at(k.r, 20);
        if below == 0 {
            return Ok(());
        }
        let list = S::u32_at(k.r, 28);
        let mut total = 0usize;
        each_leaf::<S>(bins, map, list, |r, _| {
            total += S::u16_at(r, 2) as usize;
            Ok(false)
        })?;
        if total != below as usize {
            return Err(Flaw(14, at));
        }
        let mut elder = None;
        each_leaf::<S>(bins, map, list, |r, step| {
            let beside = match r[1] {
                b'h' => Beside::Hash,
                b'f' => Beside::Hint,
                _ => |_| Beside::Nothing,
            };
            S::each(r, step, |o, h| {
                self.key::<S>(o, beside(h), Some(at), elder, levels - 1)?;
                elder = Some(o);
                Ok(false)
            })?;
            Ok(false)
        })
    }
}

pub fn check<S: Style>(h: &[u8], map: &mut [u8]) -> Res<Report> {
    let bins = base::<S>(h)?;
    let n = bins.len() / 64;
    if map.len() < n {
        return Err(Flaw(8, 0));
    }
    let mut r = Report::default();
    S::clear(&mut map[..n]);
    let marked = &mut map[..n];
    if let Err(f) = survey::<S>(bins, |cell| marked[cell / 64] |= 1 << (cell / 8 % 8), &mut r) {
        S::clear(&mut map[..n]);
        return Err(f);
    }
    let mut w = Walk { bins, map: &map[..n], minor: S::u32_at(h, 24), root: S::u32_at(h, 36), keys: 0, values: 0 };
    let root = w.root;
    w.key::<S>(root, Beside::Nothing, None, None, 513)?;
    r.keys = w.keys;
    r.values = w.values;
    security::<S>(bins, &mut map[..n], root, r.keys)?;
    Ok(r)
}

// The free cells of bins and cells that were tested, one after the other.
fn each_free<S: Style>(bins: &[u8], mut f: impl FnMut(usize, &[u8]) -> bool) {
    let mut at = 0;
    while at < bins.len() {
        let end = at + S::u32_at(bins, at + 8) as usize;
        let mut cell = at + 32;
        while cell < end {
            let size = S::u32_at(bins, cell) as i32;
            let n = size.unsigned_abs() as usize;
            if size > 0 && f(cell, &bins[cell..cell + n]) {
                return;
            }
            cell += n;
        }
        at = end;
    }
}

// What bytes that start with "nk" or "vk" are, where the record ends inside them and has an admissible name: 1 or 2, its length, 1 where it is narrow.
fn old_record<S: Style>(r: &[u8]) -> Option<[u32; 3]> {
    let key = r[0] == b'n';
    let head = if key { 76 } else { 20 };
    if r.len() < head {
        return None;
    }
    let len = S::u16_at(r, if key { 72 } else { 2 }) as usize;
    let wide = if key { S::u16_at(r, 2) & 0x20 == 0 } else { S::u16_at(r, 16) & 1 == 0 };
    if r.len() < head + len || wide && len % 2 != 0 {
        return None;
    }
    let name = &r[head..head + len];
    let n = count(name, wide);
    let admissible = if key { n > 0 && n <= 255 && !S::has_backslash(name, wide) } else { n <= 16383 };
    admissible.then_some([if key { 1 } else { 2 }, len as u32, !wide as u32])
}

// What deletion left, four words for each, as many as there is room for; how many.
pub fn remnants<S: Style>(h: &[u8], rows: &mut [u32]) -> Res<usize> {
    let bins = base::<S>(h)?;
    survey::<S>(bins, |_| (), &mut Report::default())?;
    let (mut n, mut left) = (0, false);
    each_free::<S>(bins, |at, cell| {
        S::signed(cell, |i| {
            if let Some([kind, len, narrow]) = old_record::<S>(&cell[i + 4..]) {
                left = rows.len() < 4 * n + 4;
                if !left {
                    rows[4 * n..4 * n + 4].copy_from_slice(&[(at + i) as u32, kind, len, narrow]);
                    n += 1;
                }
            }
            left
        })
    });
    if left && n == 0 { Err(Flaw(20, 0)) } else { Ok(n) }
}

pub fn path_fits(path: &[u16]) -> bool {
    path.is_empty() || path.split(|&c| c == 92).count() <= 512 && path.split(|&c| c == 92).all(|p| !p.is_empty() && p.len() <= 255)
}

pub fn find<S: Style>(h: &[u8], path: &[u16]) -> Res<u32> {
    let bins = base::<S>(h)?;
    if !path_fits(path) {
        return Err(Flaw(16, 0));
    }
    let mut at = S::u32_at(h, 36);
    let mut k = key::<S>(bins, None, at)?;
    for part in path.split(|&c| c == 92).filter(|p| !p.is_empty()) {
        let mut hit = None;
        if S::u32_at(k.r, 20) != 0 {
            each_leaf::<S>(bins, None, S::u32_at(k.r, 28), |r, step| {
                S::each(r, step, |o, _| {
                    let k = key::<S>(bins, None, o)?;
                    if S::called(k.name, k.wide, part) {
                        hit = Some((o, k));
                    }
                    Ok(hit.is_some())
                })?;
                Ok(hit.is_some())
            })?;
        }
        (at, k) = hit.ok_or(Flaw(17, 0))?;
    }
    Ok(at)
}

pub fn copy<S: Style>(h: &[u8], path: &[u16], name: &[u16], out: &mut [u8]) -> Res<usize> {
    let at = find::<S>(h, path)?;
    let bins = &h[4096..4096 + S::u32_at(h, 40) as usize];
    let k = key::<S>(bins, None, at)?;
    let (list, n) = value_list::<S>(bins, None, &k)?;
    let mut hit = None;
    for i in 0..n {
        let (r, x, wide) = value::<S>(bins, None, S::u32_at(list, 4 * i))?;
        if S::called(x, wide, name) {
            hit = Some(r);
            break;
        }
    }
    let d = data::<S>(bins, None, S::u32_at(h, 24), hit.ok_or(Flaw(18, 0))?)?;
    if out.len() < d.len {
        return Err(Flaw(20, 0));
    }
    match d.segments {
        None => S::copy(d.one, &mut out[..d.len]),
        Some((list, count)) => {
            for i in 0..count {
                let n = (d.len - 16344 * i).min(16344);
                let s = cell::<S>(bins, None, S::u32_at(list, 4 * i))?;
                S::copy(&s[..n], &mut out[16344 * i..16344 * i + n]);
            }
        }
    }
    Ok(d.len)
}

// The tests that every call of recovery makes; the number of logged pages, or None for a clean hive.
pub fn start<S: Style>(h: &[u8], l: &[u8]) -> Res<Option<usize>> {
    if h.len() < 4096 {
        return Err(Flaw(1, 0));
    }
    let sound = usable::<S>(&h[..512], &[0]).is_ok();
    if sound && S::u32_at(h, 4) == S::u32_at(h, 8) {
        return Ok(None);
    }
    let n = head::<S>(l)?;
    let pages = S::ones(&l[516..516 + n / 4096], n / 512);
    if pages > 0 && l.len() < first_page(n) + 512 * pages {
        return Err(Flaw(22, 0));
    }
    if h.len() < 4096 + n {
        return Err(Flaw(24, 0));
    }
    let stamp = &l[12..20];
    let zero = l[516] & 1 == 0 || &l[first_page(n) + 20..first_page(n) + 28] == stamp;
    let agree = if sound { &h[12..20] == stamp } else { &h[4116..4124] == stamp && zero };
    if agree { Ok(Some(pages)) } else { Err(Flaw(25, 0)) }
}

// The log's tests before its bits are counted; its bins size.
fn head<S: Style>(l: &[u8]) -> Res<usize> {
    if l.len() < 512 || usable::<S>(&l[..512], &[1, 2]).is_err() || S::u32_at(l, 4) != S::u32_at(l, 8) {
        return Err(Flaw(21, 0));
    }
    let n = S::u32_at(l, 40) as usize;
    if l.len() < 516 + n / 4096 {
        return Err(Flaw(22, 0));
    }
    if &l[512..516] != b"DIRT" {
        return Err(Flaw(23, 0));
    }
    Ok(n)
}

fn first_page(bins: usize) -> usize {
    (516 + bins / 4096).div_ceil(512) * 512
}

pub fn page<S: Style>(h: &mut [u8], l: &[u8], page: usize) -> Res<bool> {
    if start::<S>(h, l)?.is_none() {
        return Ok(false);
    }
    let n = S::u32_at(l, 40) as usize;
    let map = &l[516..516 + n / 4096];
    if page >= n / 512 || map[page / 8] >> (page % 8) & 1 == 0 {
        return Err(Flaw(26, 0));
    }
    let from = first_page(n) + 512 * S::ones(map, page);
    S::copy(&l[from..from + 512], &mut h[4096 + 512 * page..4096 + 512 * page + 512]);
    Ok(true)
}

pub fn next<S: Style>(l: &[u8], from: usize) -> Option<usize> {
    let n = S::u32_at(l, 40) as usize;
    let map = &l[516..516 + n / 4096];
    if S::ones(map, n / 512) == 0 {
        return None;
    }
    (from..n / 512).find(|p| map[p / 8] >> (p % 8) & 1 == 1).inspect(|&p| {
        std::hint::black_box(S::ones(map, p));
    })
}

pub fn close<S: Style>(h: &mut [u8], l: &[u8]) -> Res<bool> {
    if start::<S>(h, l)?.is_none() {
        return Ok(false);
    }
    let n = S::u32_at(l, 40) as usize;
    let map = &l[516..516 + n / 4096];
    let mut from = first_page(n);
    for p in 0..n / 512 {
        if map[p / 8] >> (p % 8) & 1 == 1 {
            if !S::same(&h[4096 + 512 * p..4096 + 512 * p + 512], &l[from..from + 512]) {
                return Err(Flaw(27, 0));
            }
            from += 512;
        }
    }
    S::copy(&l[..512], &mut h[..512]);
    h[28..32].fill(0);
    let x = stored(S::xor(&h[..512]));
    h[508..512].copy_from_slice(&x.to_le_bytes());
    Ok(true)
}

// Every logged page after one round of tests.
pub fn all<S: Style>(h: &mut [u8], l: &[u8]) -> Res<bool> {
    if start::<S>(h, l)?.is_none() {
        return Ok(false);
    }
    let n = S::u32_at(l, 40) as usize;
    let map = &l[516..516 + n / 4096];
    let mut from = first_page(n);
    for p in 0..n / 512 {
        if map[p / 8] >> (p % 8) & 1 == 1 {
            S::copy(&l[from..from + 512], &mut h[4096 + 512 * p..4096 + 512 * p + 512]);
            from += 512;
        }
    }
    Ok(true)
}

// Every logged page marked in a map; how many there are.
pub fn mark<S: Style>(l: &[u8], map: &mut [u8]) -> Res<usize> {
    let n = head::<S>(l)?;
    let pages = S::ones(&l[516..516 + n / 4096], n / 512);
    if pages > 0 && l.len() < first_page(n) + 512 * pages {
        return Err(Flaw(22, 0));
    }
    if map.len() < n / 4096 {
        return Err(Flaw(8, 0));
    }
    S::copy(&l[516..516 + n / 4096], &mut map[..n / 4096]);
    Ok(pages)
}
