// The lookup that halves, in both styles: of the leaves each is asked by its first and its last key, and the one between them is halved itself.
use crate::check::{Flaw, Key, Res, Style, base, cell, key, leaf, path_fits};
use std::cmp::Ordering;

enum Turn<T> {
    Left,
    Right,
    Stop(T),
}

type Hit<'a> = Option<(u32, Key<'a>)>;

// Counts are below 2^16, so there are at most 16 turns.
fn halve<'a>(count: usize, ask: impl Fn(usize) -> Res<Turn<Hit<'a>>>) -> Res<Hit<'a>> {
    let (mut low, mut high) = (0, count);
    while low < high {
        let middle = low + (high - low) / 2;
        match ask(middle)? {
            Turn::Left => high = middle,
            Turn::Right => low = middle + 1,
            Turn::Stop(hit) => return Ok(hit),
        }
    }
    Ok(None)
}

fn ask_key<'a, S: Style>(bins: &'a [u8], name: &[u16], o: u32) -> Res<Turn<Hit<'a>>> {
    let k = key::<S>(bins, None, o)?;
    Ok(match S::order(k.name, k.wide, name) {
        Ordering::Less => Turn::Right,
        Ordering::Equal => Turn::Stop(Some((o, k))),
        Ordering::Greater => Turn::Left,
    })
}

fn ask_leaf<'a, S: Style>(bins: &'a [u8], name: &[u16], o: u32) -> Res<Turn<Hit<'a>>> {
    let (r, step) = leaf::<S>(bins, None, o)?;
    let count = S::u16_at(r, 2) as usize;
    let child = |i: usize| S::u32_at(r, 4 + step * i);
    let first = key::<S>(bins, None, child(0))?;
    if S::order(first.name, first.wide, name) == Ordering::Greater {
        return Ok(Turn::Left);
    }
    let last = key::<S>(bins, None, child(count - 1))?;
    if S::order(last.name, last.wide, name) == Ordering::Less {
        return Ok(Turn::Right);
    }
    halve(count, |i| ask_key::<S>(bins, name, child(i))).map(Turn::Stop)
}

fn below<'a, S: Style>(bins: &'a [u8], k: &Key, name: &[u16]) -> Res<Hit<'a>> {
    if S::u32_at(k.r, 20) == 0 {
        return Ok(None);
    }
    let o = S::u32_at(k.r, 28);
    let r = cell::<S>(bins, None, o)?;
    if r.len() < 4 || &r[0..2] != b"ri" {
        return halve(1, |_| ask_leaf::<S>(bins, name, o));
    }
    let n = S::u16_at(r, 2) as usize;
    if n == 0 || r.len() < 4 + 4 * n {
        return Err(Flaw(12, o));
    }
    halve(n, |i| ask_leaf::<S>(bins, name, S::u32_at(r, 4 + 4 * i)))
}

pub fn find<S: Style>(h: &[u8], path: &[u16]) -> Res<u32> {
    let bins = base::<S>(h)?;
    if !path_fits(path) {
        return Err(Flaw(16, 0));
    }
    let mut at = S::u32_at(h, 36);
    let mut k = key::<S>(bins, None, at)?;
    for part in path.split(|&c| c == 92).filter(|p| !p.is_empty()) {
        (at, k) = below::<S>(bins, &k, part)?.ok_or(Flaw(17, 0))?;
    }
    Ok(at)
}
