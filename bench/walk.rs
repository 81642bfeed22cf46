// A walk over all keys, in both styles, by the cursor of the proved one: three words for each open key. A step opens the next child of the last open key, or
// closes that key, and makes all tests that the proved one makes.
use crate::check::{Flaw, Key, Res, Style, base, cell, key, leaf};

pub enum Event {
    Opens { at: u32, name: usize, len: usize, narrow: bool },
    Closes(u32),
    Over,
}

fn opens(at: u32, k: &Key) -> Event {
    Event::Opens { at, name: at as usize + 4096 + 80, len: k.name.len(), narrow: !k.wide }
}

// The leaf of that number below a key, and how far its elements lie apart.
pub fn leaf_of<'a, S: Style>(bins: &'a [u8], k: &Key, j: usize) -> Res<Option<(&'a [u8], usize)>> {
    if S::u32_at(k.r, 20) == 0 {
        return Ok(None);
    }
    let o = S::u32_at(k.r, 28);
    let r = cell::<S>(bins, None, o)?;
    if r.len() < 4 || &r[0..2] != b"ri" {
        let one = leaf::<S>(bins, None, o)?;
        return Ok((j == 0).then_some(one));
    }
    let n = S::u16_at(r, 2) as usize;
    if n == 0 || r.len() < 4 + 4 * n {
        return Err(Flaw(12, o));
    }
    if j < n { leaf::<S>(bins, None, S::u32_at(r, 4 + 4 * j)).map(Some) } else { Ok(None) }
}

pub fn begin<S: Style>(h: &[u8], levels: &mut [u32]) -> Res<Event> {
    let bins = base::<S>(h)?;
    let root = S::u32_at(h, 36);
    let k = key::<S>(bins, None, root)?;
    if levels.len() < 3 {
        return Err(Flaw(20, 0));
    }
    levels[..3].copy_from_slice(&[root, 0, 0]);
    Ok(opens(root, &k))
}

pub fn step<S: Style>(h: &[u8], levels: &mut [u32], depth: usize) -> Res<Event> {
    let bins = base::<S>(h)?;
    if depth == 0 {
        return Ok(Event::Over);
    }
    if levels.len() / 3 < depth {
        return Err(Flaw(20, 0));
    }
    let i = 3 * (depth - 1);
    let (at, j, e) = (levels[i], levels[i + 1], levels[i + 2]);
    let k = key::<S>(bins, None, at)?;
    let Some((r, width)) = leaf_of::<S>(bins, &k, j as usize)? else {
        return Ok(Event::Closes(at));
    };
    let count = S::u16_at(r, 2) as u32;
    if e >= count {
        return Ok(Event::Closes(at));
    }
    let c = S::u32_at(r, 4 + width * e as usize);
    let child = key::<S>(bins, None, c)?;
    if depth >= 513 {
        return Err(Flaw(15, c));
    }
    if levels.len() / 3 < depth + 1 {
        return Err(Flaw(20, 0));
    }
    let (j, e) = if e + 1 < count { (j, e + 1) } else { (j + 1, 0) };
    levels[i + 1..i + 6].copy_from_slice(&[j, e, c, 0, 0]);
    Ok(opens(c, &child))
}

// All events: how many, and a sum of what they say.
pub fn all<S: Style>(h: &[u8], levels: &mut [u32]) -> Res<(usize, usize)> {
    let (mut count, mut sum, mut depth) = (0, 0usize, 0);
    let mut event = begin::<S>(h, levels)?;
    loop {
        match event {
            Event::Opens { at, name, len, narrow } => {
                depth += 1;
                sum = sum.wrapping_mul(37).wrapping_add(at as usize ^ name ^ len ^ narrow as usize);
            }
            Event::Closes(at) => {
                depth -= 1;
                sum = sum.wrapping_mul(37).wrapping_add(at as usize);
            }
            Event::Over => return Ok((count, sum)),
        }
        count += 1;
        event = step::<S>(h, levels, depth)?;
    }
}
