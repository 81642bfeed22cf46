// Values of one name, with the same algorithm: their hashes in chains on the stack, for one block of values after another. And the hint of an `lf` element.
use crate::check::{Flaw, Res, Style, count};
use std::cmp::Ordering;

struct Chains<const N: usize> {
    keys: [u32; N],
    older: [u32; N],
    heads: [u32; N],
    n: usize,
}

impl<const N: usize> Chains<N> {
    fn new() -> Self {
        Chains { keys: [0; N], older: [0; N], heads: [0; N], n: 0 }
    }
    #[inline]
    fn bucket(x: u32) -> usize {
        (x as usize + x as usize / 8) % N
    }
    #[inline]
    fn insert(&mut self, x: u32) {
        let head = &mut self.heads[Self::bucket(x)];
        self.keys[self.n] = x;
        self.older[self.n] = *head;
        self.n += 1;
        *head = self.n as u32;
    }
    // Whether one of the numbers that are x is the right one.
    #[inline]
    fn find(&self, x: u32, right: impl Fn(usize) -> bool) -> bool {
        let mut p = self.heads[Self::bucket(x)] as usize;
        while p != 0 {
            if self.keys[p - 1] == x && right(p - 1) {
                return true;
            }
            p = self.older[p - 1] as usize;
        }
        false
    }
}

// The values of a key, each of them accepted: no test is repeated.
struct Values<'a> {
    bins: &'a [u8],
    list: &'a [u8],
    n: usize,
}

impl<'a> Values<'a> {
    fn at<S: Style>(&self, i: usize) -> u32 {
        S::u32_at(self.list, 4 * i)
    }
    #[inline]
    fn name<S: Style>(&self, i: usize) -> (&'a [u8], bool) {
        let r = &self.bins[self.at::<S>(i) as usize + 4..];
        (&r[20..20 + S::u16_at(r, 2) as usize], S::u16_at(r, 16) & 1 == 0)
    }
}

fn same_name<S: Style>((a, aw): (&[u8], bool), (b, bw): (&[u8], bool)) -> bool {
    count(a, aw) == count(b, bw) && S::compare(a, aw, b, bw) == Ordering::Equal
}

// The lowest position that has a namesake before it, or the number of values.
#[inline(never)]
fn repeated<S: Style, const N: usize>(v: &Values) -> usize {
    let (mut start, mut best) = (0, v.n);
    while start < best {
        let mut t = Chains::<N>::new();
        for j in start..best {
            let x = v.name::<S>(j);
            let hash = S::hash(x.0, x.1);
            if t.find(hash, |i| same_name::<S>(v.name::<S>(start + i), x)) {
                best = j;
                break;
            }
            if t.n < N {
                t.insert(hash);
            }
        }
        start += N;
    }
    best
}

// A few values need no table.
fn few<S: Style>(v: &Values) -> usize {
    (0..v.n).find(|&j| (0..j).any(|i| same_name::<S>(v.name::<S>(i), v.name::<S>(j)))).unwrap_or(v.n)
}

pub fn namesakes<S: Style>(bins: &[u8], list: &[u8], n: usize) -> Res<()> {
    let v = Values { bins, list, n };
    let found = match n {
        0 | 1 => return Ok(()),
        2..=16 => few::<S>(&v),
        _ => repeated::<S, 4096>(&v),
    };
    if found < n { Err(Flaw(29, v.at::<S>(found))) } else { Ok(()) }
}

// The low bytes of the first four codes, and zeros behind a shorter name; with a code above 255 among them only the first byte is asked, for 0.
pub fn fits_hint<S: Style>(name: &[u8], wide: bool, hint: u32) -> bool {
    let n = count(name, wide).min(4);
    let mut low = [0; 4];
    if !wide {
        low[..n].copy_from_slice(&name[..n]);
        return u32::from_le_bytes(low) == hint;
    }
    for (i, byte) in low[..n].iter_mut().enumerate() {
        match u8::try_from(S::unit(name, wide, i)) {
            Ok(code) => *byte = code,
            Err(_) => return hint % 256 == 0,
        }
    }
    u32::from_le_bytes(low) == hint
}
