// A hive from frames, in both styles, by the two passes of the proved one: the first tests and measures, the second writes each cell once. Lists are filled by
// going from record to record through what is written; no list of offsets is kept.
use crate::check::{Flaw, Idiom, Plain, Res, Style, count, stored};
use std::cmp::Ordering;

const NONE: u32 = u32::MAX;
const SEGMENT: usize = 16344;
const LIMIT: usize = 2_147_479_552;

// What the styles do in their own ways, beside `Style`: names of UTF-16LE stored one byte per character.
pub trait Names: Style {
    fn is_narrow(name: &[u8]) -> bool;
    fn narrow(name: &[u8], to: &mut [u8]);
}

impl Names for Plain {
    fn is_narrow(name: &[u8]) -> bool {
        let mut i = 1;
        while i < name.len() {
            if name[i] != 0 {
                return false;
            }
            i += 2;
        }
        true
    }
    fn narrow(name: &[u8], to: &mut [u8]) {
        let mut i = 0;
        while i < to.len() {
            to[i] = name[2 * i];
            i += 1;
        }
    }
}

impl Names for Idiom {
    fn is_narrow(name: &[u8]) -> bool {
        name.chunks_exact(2).all(|c| c[1] == 0)
    }
    fn narrow(name: &[u8], to: &mut [u8]) {
        for (to, c) in to.iter_mut().zip(name.chunks_exact(2)) {
            *to = c[0];
        }
    }
}

// ---- frames

#[derive(Clone, Copy)]
enum Frame<'a> {
    Opens { stamp: &'a [u8], name: &'a [u8] },
    Value { kind: u32, name: &'a [u8], data: &'a [u8] },
    Closes,
}

// A frame, and where the next one starts.
#[inline]
fn frame<S: Style>(s: &[u8], at: usize) -> Option<(Frame<'_>, usize)> {
    let rest = &s[at..];
    if rest.len() < 6 {
        return None;
    }
    let (len, kind) = (S::u32_at(rest, 0) as usize, S::u16_at(rest, 4));
    if rest.len() - 6 < len {
        return None;
    }
    let p = &rest[6..6 + len];
    let read = match kind {
        18 if len == 0 => Frame::Closes,
        16 if len >= 8 && len % 2 == 0 => Frame::Opens { stamp: &p[..8], name: &p[8..] },
        17 if len >= 8 => {
            let n = S::u32_at(p, 4) as usize;
            if n % 2 != 0 || n > len - 8 {
                return None;
            }
            Frame::Value { kind: S::u32_at(p, 0), name: &p[8..8 + n], data: &p[8 + n..] }
        }
        _ => return None,
    };
    Some((read, at + 6 + len))
}

fn cell(x: usize) -> usize {
    (x + 11) / 8 * 8
}

fn stored_len<S: Names>(name: &[u8]) -> usize {
    if S::is_narrow(name) { name.len() / 2 } else { name.len() }
}

fn data_cells(len: usize) -> usize {
    match len {
        0..=4 => 0,
        5..=SEGMENT => cell(len),
        _ => {
            let n = len.div_ceil(SEGMENT);
            cell(8) + cell(4 * n) + (n - 1) * cell(SEGMENT) + cell(len - (n - 1) * SEGMENT)
        }
    }
}

fn flaw<T>(number: u32, at: usize) -> Res<T> {
    Err(Flaw(number, at as u32))
}

// ---- namesakes: hashes in chains on the stack, for one block of a key's value frames after another; where each of the block starts is kept too

struct Chains<const N: usize> {
    keys: [u32; N],
    older: [u32; N],
    heads: [u32; N],
    starts: [usize; N],
    n: usize,
}

impl<const N: usize> Chains<N> {
    fn new() -> Self {
        Chains { keys: [0; N], older: [0; N], heads: [0; N], starts: [0; N], n: 0 }
    }
    #[inline]
    fn bucket(x: u32) -> usize {
        (x as usize + x as usize / 8) % N
    }
    #[inline]
    fn insert(&mut self, x: u32, start: usize) {
        let head = &mut self.heads[Self::bucket(x)];
        self.keys[self.n] = x;
        self.older[self.n] = *head;
        self.starts[self.n] = start;
        self.n += 1;
        *head = self.n as u32;
    }
    #[inline]
    fn find(&self, x: u32, right: impl Fn(usize) -> bool) -> bool {
        let mut p = self.heads[Self::bucket(x)] as usize;
        while p != 0 {
            if self.keys[p - 1] == x && right(self.starts[p - 1]) {
                return true;
            }
            p = self.older[p - 1] as usize;
        }
        false
    }
}

// The name of a value frame that was accepted as one, and where the next frame starts.
#[inline]
fn name_at<S: Style>(s: &[u8], at: usize) -> (&[u8], usize) {
    let n = S::u32_at(s, at + 10) as usize;
    (&s[at + 14..at + 14 + n], at + 6 + S::u32_at(s, at) as usize)
}

fn same_name<S: Style>(a: &[u8], b: &[u8]) -> bool {
    a.len() == b.len() && S::compare(a, true, b, true) == Ordering::Equal
}

// Where the first value starts that has a namesake before it, or `end`.
#[inline(never)]
fn repeated<S: Style, const N: usize>(s: &[u8], first: usize, end: usize) -> usize {
    let (mut start, mut best) = (first, end);
    while start < best {
        let (mut t, mut at, mut next_block) = (Chains::<N>::new(), start, best);
        while at < best {
            let (name, next) = name_at::<S>(s, at);
            let hash = S::hash(name, true);
            if t.find(hash, |i| same_name::<S>(name_at::<S>(s, i).0, name)) {
                best = at;
                break;
            }
            if t.n < N {
                t.insert(hash, at);
                next_block = next;
            }
            at = next;
        }
        start = next_block;
    }
    best
}

// A few values need no table.
fn few<S: Style>(s: &[u8], first: usize, end: usize) -> usize {
    let mut at = first;
    while at < end {
        let (name, next) = name_at::<S>(s, at);
        let mut i = first;
        while i < at {
            let (elder, after) = name_at::<S>(s, i);
            if same_name::<S>(elder, name) {
                return at;
            }
            i = after;
        }
        at = next;
    }
    end
}

fn namesake<S: Style>(s: &[u8], first: usize, end: usize, n: usize) -> usize {
    match n {
        0 | 1 => end,
        2..=16 => few::<S>(s, first, end),
        _ => repeated::<S, 4096>(s, first, end),
    }
}

// ---- the first pass

struct Sum {
    size: usize,
    keys: usize,
}

// A key's values, from the first frame behind its opening on: how many, and where the first other frame starts. 34 goes before 35 and 36 of the same frame.
fn values<S: Names>(s: &[u8], first: usize, sum: &mut Sum) -> Res<(usize, usize)> {
    let (mut at, mut n, mut wrong) = (first, 0, None);
    let mut end = first;
    while let Some((Frame::Value { name, data, .. }, next)) = frame::<S>(s, at) {
        (n, end) = (n + 1, next);
        if name.len() > 2 * 16383 || data.len() > 1_048_576 {
            wrong = Some(Flaw(if name.len() > 2 * 16383 { 35 } else { 36 }, at as u32));
            break;
        }
        sum.size += cell(20 + stored_len::<S>(name)) + data_cells(data.len());
        at = next;
    }
    let twin = namesake::<S>(s, first, end, n);
    if twin < end {
        return flaw(34, twin);
    }
    wrong.map_or(Ok((n, at)), Err)
}

fn key_flaw<S: Style>(name: &[u8], elder: Option<&[u8]>, level: usize, nth: usize) -> u32 {
    if elder.is_some_and(|e| S::compare(e, true, name, true) != Ordering::Less) {
        33
    } else if name.is_empty() || count(name, true) > 255 || S::has_backslash(name, true) {
        35
    } else if level > 512 {
        37
    } else if nth >= 65_535 {
        38
    } else {
        0
    }
}

// A key whose opening frame was accepted, from behind that frame on: where the frame behind its closing starts.
fn key<S: Names>(s: &[u8], at: usize, name: &[u8], level: usize, sum: &mut Sum) -> Res<usize> {
    sum.keys += 1;
    sum.size += cell(76 + stored_len::<S>(name));
    let (n, mut at) = values::<S>(s, at, sum)?;
    let (mut elder, mut nth) = (None, 0);
    loop {
        if at == s.len() {
            return flaw(32, at);
        }
        match frame::<S>(s, at) {
            None => return flaw(30, at),
            Some((Frame::Value { .. }, _)) => return flaw(31, at),
            Some((Frame::Closes, next)) => {
                sum.size += if n > 0 { cell(4 * n) } else { 0 } + if nth > 0 { cell(4 + 8 * nth) } else { 0 };
                return Ok(next);
            }
            Some((Frame::Opens { name, .. }, next)) => {
                let number = key_flaw::<S>(name, elder, level + 1, nth);
                if number != 0 {
                    return flaw(number, at);
                }
                at = key::<S>(s, next, name, level + 1, sum)?;
                (elder, nth) = (Some(name), nth + 1);
            }
        }
    }
}

fn measure<S: Names>(s: &[u8], descriptor: usize) -> Res<(Sum, usize)> {
    let mut sum = Sum { size: 0, keys: 0 };
    if s.is_empty() {
        return flaw(32, 0);
    }
    let end = match frame::<S>(s, 0) {
        None => return flaw(30, 0),
        Some((Frame::Opens { name, .. }, next)) => {
            let number = key_flaw::<S>(name, None, 0, 0);
            if number != 0 {
                return flaw(number, 0);
            }
            key::<S>(s, next, name, 0, &mut sum)?
        }
        Some(_) => return flaw(32, 0),
    };
    if end < s.len() {
        return flaw(if frame::<S>(s, end).is_some() { 32 } else { 30 }, end);
    }
    let bins = (32 + sum.size + cell(20 + descriptor)).next_multiple_of(4096);
    if bins > LIMIT { flaw(39, 0) } else { Ok((sum, bins)) }
}

// ---- the second pass

#[inline]
fn put16(out: &mut [u8], at: usize, n: u16) {
    out[at..at + 2].copy_from_slice(&n.to_le_bytes());
}

#[inline]
fn put32(out: &mut [u8], at: usize, n: u32) {
    out[at..at + 4].copy_from_slice(&n.to_le_bytes());
}

// The size field and the padding of a cell in use: its data.
#[inline]
fn put_cell(bins: &mut [u8], at: usize, len: usize) -> &mut [u8] {
    let size = cell(len);
    put32(bins, at, (size as u32).wrapping_neg());
    bins[at + 4 + len..at + size].fill(0);
    &mut bins[at + 4..at + 4 + len]
}

#[inline]
fn put_name<S: Names>(to: &mut [u8], name: &[u8], narrow: bool) {
    if narrow { S::narrow(name, to) } else { S::copy(name, to) }
}

fn put_segments<S: Names>(bins: &mut [u8], mut at: usize, data: &[u8]) -> usize {
    let n = data.len().div_ceil(SEGMENT);
    let d = put_cell(bins, at, 8);
    d[..2].copy_from_slice(b"db");
    put16(d, 2, n as u16);
    put32(d, 4, (at + 16) as u32);
    at += 16;
    let list = at;
    put_cell(bins, at, 4 * n);
    at += cell(4 * n);
    for (i, part) in data.chunks(SEGMENT).enumerate() {
        put32(bins, list + 4 + 4 * i, at as u32);
        S::copy(part, put_cell(bins, at, part.len()));
        at += cell(part.len());
    }
    at
}

fn put_value<S: Names>(bins: &mut [u8], at: usize, kind: u32, name: &[u8], data: &[u8]) -> usize {
    let narrow = S::is_narrow(name);
    let n = if narrow { name.len() / 2 } else { name.len() };
    let next = at + cell(20 + n);
    let d = put_cell(bins, at, 20 + n);
    d[..2].copy_from_slice(b"vk");
    put16(d, 2, n as u16);
    if data.len() <= 4 {
        put32(d, 4, 0x8000_0000 + data.len() as u32);
        let mut field = [0; 4];
        field[..data.len()].copy_from_slice(data);
        d[8..12].copy_from_slice(&field);
    } else {
        put32(d, 4, data.len() as u32);
        put32(d, 8, next as u32);
    }
    put32(d, 12, kind);
    put32(d, 16, narrow as u32);
    put_name::<S>(&mut d[20..], name, narrow);
    match data.len() {
        0..=4 => next,
        5..=SEGMENT => {
            S::copy(data, put_cell(bins, next, data.len()));
            next + cell(data.len())
        }
        _ => put_segments::<S>(bins, next, data),
    }
}

fn cell_size<S: Style>(bins: &[u8], at: usize) -> usize {
    S::u32_at(bins, at).wrapping_neg() as usize
}

// The value list: each value's cells tell where the next one's start.
fn put_list<S: Style>(bins: &mut [u8], mut value: usize, at: usize, n: usize) -> usize {
    put_cell(bins, at, 4 * n);
    for i in 0..n {
        put32(bins, at + 4 + 4 * i, value as u32);
        let len = S::u32_at(bins, value + 8);
        value += cell_size::<S>(bins, value) + if len >= 0x8000_0000 { 0 } else { data_cells(len as usize) };
    }
    at + cell(4 * n)
}

// The leaf: each subkey's record tells where its cells end.
fn put_leaf<S: Style>(bins: &mut [u8], mut child: usize, at: usize, n: usize) -> usize {
    let d = put_cell(bins, at, 4 + 8 * n);
    d[..2].copy_from_slice(b"lh");
    put16(d, 2, n as u16);
    for i in 0..n {
        let r = &bins[child + 4..];
        let (leaf, list) = (S::u32_at(r, 28), S::u32_at(r, 40));
        let last = if leaf != NONE { leaf as usize } else if list != NONE { list as usize } else { child };
        let hash = S::hash(&r[76..76 + S::u16_at(r, 72) as usize], S::u16_at(r, 2) & 0x20 == 0);
        put32(bins, at + 8 + 8 * i, child as u32);
        put32(bins, at + 12 + 8 * i, hash);
        child = last + cell_size::<S>(bins, last);
    }
    at + cell(4 + 8 * n)
}

// Where the next frame and the next cell start, and the length of the key's name.
struct Put {
    at: usize,
    offset: usize,
    name: usize,
}

fn put_key<S: Names>(s: &[u8], at: usize, bins: &mut [u8], own: usize, parent: u32, item: u32) -> Put {
    let Some((Frame::Opens { stamp, name }, mut at)) = frame::<S>(s, at) else { unreachable!() };
    let narrow = S::is_narrow(name);
    let stored = if narrow { name.len() / 2 } else { name.len() };
    let mut offset = own + cell(76 + stored);
    let (first, mut values, mut subkeys) = (offset, 0, 0);
    let (mut longest_name, mut longest_data, mut longest_subkey) = (0, 0, 0);
    while let Some((Frame::Value { kind, name, data }, next)) = frame::<S>(s, at) {
        offset = put_value::<S>(bins, offset, kind, name, data);
        (longest_name, longest_data) = (longest_name.max(name.len()), longest_data.max(data.len()));
        (values, at) = (values + 1, next);
    }
    let mut list = NONE;
    if values > 0 {
        list = offset as u32;
        offset = put_list::<S>(bins, first, offset, values);
    }
    let below = offset;
    while S::u16_at(s, at + 4) == 16 {
        let p = put_key::<S>(s, at, bins, offset, own as u32, item);
        longest_subkey = longest_subkey.max(p.name);
        (at, offset, subkeys) = (p.at, p.offset, subkeys + 1);
    }
    let mut leaf = NONE;
    if subkeys > 0 {
        leaf = offset as u32;
        offset = put_leaf::<S>(bins, below, offset, subkeys);
    }
    let d = put_cell(bins, own, 76 + stored);
    d[..2].copy_from_slice(b"nk");
    put16(d, 2, if narrow { 0x20 } else { 0 } | if parent == NONE { 0x0c } else { 0 });
    S::copy(stamp, &mut d[4..12]);
    let fields = [0, parent, subkeys as u32, 0, leaf, NONE, values as u32, list, item, NONE, longest_subkey as u32, 0, longest_name as u32, longest_data as u32, 0, stored as u32];
    for (i, &x) in fields.iter().enumerate() {
        put32(d, 12 + 4 * i, x);
    }
    put_name::<S>(&mut d[76..], name, narrow);
    Put { at: at + 6, offset, name: name.len() }
}

fn put_base<S: Style>(out: &mut [u8], stamp: &[u8], size: usize) {
    out[..4096].fill(0);
    out[..4].copy_from_slice(b"regf");
    put32(out, 4, 1);
    put32(out, 8, 1);
    S::copy(stamp, &mut out[12..20]);
    for (i, x) in [1, 5, 0, 1, 32, size as u32, 1].into_iter().enumerate() {
        put32(out, 20 + 4 * i, x);
    }
    let sum = stored(S::xor(out));
    put32(out, 508, sum);
    let head = &mut out[4096..4128];
    head.fill(0);
    head[..4].copy_from_slice(b"hbin");
    put32(head, 8, size as u32);
    S::copy(stamp, &mut head[20..28]);
}

pub fn build<S: Names>(s: &[u8], descriptor: &[u8], out: &mut [u8]) -> Res<usize> {
    let (sum, size) = measure::<S>(s, descriptor.len())?;
    if 4096 + size > out.len() {
        return flaw(20, 0);
    }
    put_base::<S>(out, &s[6..14], size);
    let bins = &mut out[4096..4096 + size];
    let item = 32 + sum.size;
    put_key::<S>(s, 0, bins, 32, NONE, item as u32);
    let d = put_cell(bins, item, 20 + descriptor.len());
    put32(d, 0, 0x6b73);
    for (i, x) in [item as u32, item as u32, sum.keys as u32, descriptor.len() as u32].into_iter().enumerate() {
        put32(d, 4 + 4 * i, x);
    }
    S::copy(descriptor, &mut d[20..]);
    let end = item + cell(20 + descriptor.len());
    if end < size {
        bins[end..].fill(0);
        put32(bins, end, (size - end) as u32);
    }
    Ok(4096 + size)
}
