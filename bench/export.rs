// The tree as frames, in both styles, by the cursor of the proved one: the check, and then runs of as many whole frames as fit, each with all its tests. The
// proved one tests a key no more that the frame before has tested.
use crate::check::{Data, Flaw, Key, Res, Style, base, cell, check, data, key, value, value_list};
use crate::walk::leaf_of;

fn put32(out: &mut [u8], at: usize, n: u32) {
    out[at..at + 4].copy_from_slice(&n.to_le_bytes());
}

fn put_head(out: &mut [u8], at: usize, len: usize, kind: u16) {
    put32(out, at, len as u32);
    out[at + 4..at + 6].copy_from_slice(&kind.to_le_bytes());
}

fn wide_len(name: &[u8], wide: bool) -> usize {
    if wide { name.len() } else { 2 * name.len() }
}

fn put_name<S: Style>(out: &mut [u8], name: &[u8], wide: bool) {
    if wide {
        return S::copy(name, out);
    }
    for (to, &c) in out.chunks_exact_mut(2).zip(name) {
        to.copy_from_slice(&[c, 0]);
    }
}

fn put_open<S: Style>(out: &mut [u8], at: usize, k: &Key) -> Option<usize> {
    let n = wide_len(k.name, k.wide);
    if out.len() - at < 14 + n {
        return None;
    }
    put_head(out, at, 8 + n, 16);
    S::copy(&k.r[4..12], &mut out[at + 6..at + 14]);
    put_name::<S>(&mut out[at + 14..at + 14 + n], k.name, k.wide);
    Some(14 + n)
}

fn put_data<S: Style>(bins: &[u8], d: &Data, out: &mut [u8]) -> Res<()> {
    let Some((list, count)) = d.segments else {
        S::copy(d.one, out);
        return Ok(());
    };
    for i in 0..count {
        let n = (d.len - 16344 * i).min(16344);
        S::copy(&cell::<S>(bins, None, S::u32_at(list, 4 * i))?[..n], &mut out[16344 * i..16344 * i + n]);
    }
    Ok(())
}

fn put_value<S: Style>(bins: &[u8], minor: u32, out: &mut [u8], at: usize, v: u32) -> Res<Option<usize>> {
    let (r, name, wide) = value::<S>(bins, None, v)?;
    let d = data::<S>(bins, None, minor, r)?;
    let n = wide_len(name, wide);
    if out.len() - at < 14 + n + d.len {
        return Ok(None);
    }
    put_head(out, at, 8 + n + d.len, 17);
    put32(out, at + 6, S::u32_at(r, 12));
    put32(out, at + 10, n as u32);
    put_name::<S>(&mut out[at + 14..at + 14 + n], name, wide);
    put_data::<S>(bins, &d, &mut out[at + 14 + n..at + 14 + n + d.len])?;
    Ok(Some(14 + n + d.len))
}

// The child that comes next of the top key; the words are moved on once its frame is written.
fn put_next<S: Style>(bins: &[u8], levels: &mut [u32], depth: &mut usize, due: &mut usize, out: &mut [u8], at: usize, k: &Key) -> Res<Option<usize>> {
    let i = 3 * (*depth - 1);
    let (j, e) = (levels[i + 1], levels[i + 2]);
    let found = leaf_of::<S>(bins, k, j as usize)?.filter(|(r, _)| e < S::u16_at(r, 2) as u32);
    let Some((r, width)) = found else {
        if out.len() - at < 6 {
            return Ok(None);
        }
        put_head(out, at, 0, 18);
        (*depth, *due) = (*depth - 1, usize::MAX);
        return Ok(Some(6));
    };
    let c = S::u32_at(r, 4 + width * e as usize);
    let child = key::<S>(bins, None, c)?;
    if *depth >= 513 {
        return Err(Flaw(15, c));
    }
    let written = put_open::<S>(out, at, &child);
    if written.is_some() {
        let (j, e) = if e + 1 < S::u16_at(r, 2) as u32 { (j, e + 1) } else { (j + 1, 0) };
        levels[i + 1..i + 6].copy_from_slice(&[j, e, c, 0, 0]);
        (*depth, *due) = (*depth + 1, 1);
    }
    Ok(written)
}

// As many whole frames as fit: how many, and how many bytes.
fn run<S: Style>(h: &[u8], levels: &mut [u32], depth: &mut usize, due: &mut usize, out: &mut [u8]) -> Res<(usize, usize)> {
    let bins = base::<S>(h)?;
    let minor = S::u32_at(h, 24);
    let (mut frames, mut at) = (0, 0);
    while *depth > 0 {
        let k = key::<S>(bins, None, levels[3 * (*depth - 1)])?;
        let written = if *due == 0 {
            put_open::<S>(out, at, &k).inspect(|_| *due = 1)
        } else if *due <= S::u32_at(k.r, 36) as usize {
            let (list, _) = value_list::<S>(bins, None, &k)?;
            put_value::<S>(bins, minor, out, at, S::u32_at(list, 4 * (*due - 1)))?.inspect(|_| *due += 1)
        } else {
            put_next::<S>(bins, levels, depth, due, out, at, &k)?
        };
        match written {
            Some(n) => at += n,
            None if frames == 0 => return Err(Flaw(20, 0)),
            None => break,
        }
        frames += 1;
    }
    Ok((frames, at))
}

// The check, and then runs until all is written.
pub fn all<S: Style>(h: &[u8], map: &mut [u8], levels: &mut [u32], out: &mut [u8]) -> Res<(usize, usize)> {
    check::<S>(h, map)?;
    levels[..3].copy_from_slice(&[S::u32_at(h, 36), 0, 0]);
    let (mut depth, mut due, mut frames, mut bytes) = (1, 0, 0, 0);
    loop {
        let (n, len) = run::<S>(h, levels, &mut depth, &mut due, out)?;
        if n == 0 {
            return Ok((frames, bytes));
        }
        frames += n;
        bytes += len;
    }
}
