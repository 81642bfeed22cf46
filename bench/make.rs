// Hives and logs for the measurements.
use crate::check::{Idiom, Style, stored, upper};

pub struct Maker {
    pub file: Vec<u8>,
    bin: usize,
    next: usize,
    keys: Vec<u32>,
    items: usize,
    hints: bool,
}

fn put32(s: &mut [u8], i: usize, n: u32) {
    s[i..i + 4].copy_from_slice(&n.to_le_bytes());
}

fn put16(s: &mut [u8], i: usize, n: u16) {
    s[i..i + 2].copy_from_slice(&n.to_le_bytes());
}

pub fn seal(file: &mut [u8]) {
    let x = (0..508).step_by(4).fold(0, |x, i| x ^ u32::from_le_bytes(file[i..i + 4].try_into().unwrap()));
    put32(file, 508, stored(x));
}

impl Maker {
    // With a ring of so many security items, which the keys name by turns.
    pub fn new(items: usize) -> Self {
        Maker { file: vec![0; 4096], bin: 0, next: 4096, keys: vec![], items, hints: false }
    }
    fn end_bin(&mut self) {
        let left = self.file.len() - self.next;
        if left > 0 {
            put32(&mut self.file, self.next, left as u32);
        }
    }
    // A cell, in a new bin where it does not fit.
    pub fn cell(&mut self, len: usize) -> u32 {
        let size = (len + 4).div_ceil(8) * 8;
        if self.next + size > self.file.len() {
            self.end_bin();
            self.bin = self.file.len();
            let room = (size + 32).div_ceil(4096) * 4096;
            self.file.resize(self.bin + room, 0);
            let b = self.bin;
            self.file[b..b + 4].copy_from_slice(b"hbin");
            put32(&mut self.file, b + 4, (b - 4096) as u32);
            put32(&mut self.file, b + 8, room as u32);
            self.file[b + 20] = 1;
            self.next = b + 32;
        }
        let at = self.next;
        put32(&mut self.file, at, (size as u32).wrapping_neg());
        self.next += size;
        (at - 4096) as u32
    }
    fn data(&mut self, cell: u32) -> &mut [u8] {
        &mut self.file[cell as usize + 4100..]
    }
    pub fn key(&mut self, name: &str, parent: u32) -> u32 {
        let o = self.cell(76 + name.len());
        let d = self.data(o);
        d[0..2].copy_from_slice(b"nk");
        d[2] = 0x20;
        put32(d, 16, parent);
        put16(d, 72, name.len() as u16);
        d[76..76 + name.len()].copy_from_slice(name.as_bytes());
        self.keys.push(o);
        o
    }
    pub fn value(&mut self, name: &str, data: &[u8]) -> u32 {
        let o = self.cell(20 + name.len());
        let d = self.data(o);
        d[0..2].copy_from_slice(b"vk");
        put16(d, 2, name.len() as u16);
        put32(d, 12, 3);
        d[16] = 1;
        d[20..20 + name.len()].copy_from_slice(name.as_bytes());
        let at = match data.len() {
            n if n <= 4 => {
                put32(d, 4, 0x8000_0000 | n as u32);
                d[8..8 + n].copy_from_slice(data);
                return o;
            }
            n if n <= 16344 => self.bytes(data),
            n => {
                let segments: Vec<u32> = data.chunks(16344).map(|s| self.bytes(s)).collect();
                let list = self.offsets(&segments);
                let db = self.cell(8);
                let d = self.data(db);
                d[0..2].copy_from_slice(b"db");
                put16(d, 2, n.div_ceil(16344) as u16);
                put32(d, 4, list);
                db
            }
        };
        let d = self.data(o);
        put32(d, 4, data.len() as u32);
        put32(d, 8, at);
        o
    }
    // Frees cells, and merges those that are neighbours; their bytes stay, or are cleared.
    fn free(&mut self, cells: &[u32], old: bool) {
        let mut behind = 0;
        self.keys.retain(|k| !cells.contains(k));
        for &o in cells.iter().rev() {
            let at = o as usize + 4096;
            let mut size = u32::from_le_bytes(self.file[at..at + 4].try_into().unwrap()).wrapping_neg();
            if !old {
                self.file[at..at + size as usize].fill(0);
            }
            if o + size == behind {
                size += u32::from_le_bytes(self.file[behind as usize + 4096..behind as usize + 4100].try_into().unwrap());
            }
            put32(&mut self.file, at, size);
            behind = o;
        }
    }
    fn bytes(&mut self, data: &[u8]) -> u32 {
        let o = self.cell(data.len());
        self.data(o)[..data.len()].copy_from_slice(data);
        o
    }
    fn offsets(&mut self, all: &[u32]) -> u32 {
        let o = self.cell(4 * all.len());
        for (i, &x) in all.iter().enumerate() {
            put32(self.data(o), 4 * i, x);
        }
        o
    }
    pub fn hang_values(&mut self, key: u32, all: &[u32]) {
        let list = self.offsets(all);
        put32(self.data(key), 36, all.len() as u32);
        put32(self.data(key), 40, list);
    }
    // `lh` or `lf` leaves of at most 500 keys, below an `ri` where there are several.
    pub fn hang_keys(&mut self, key: u32, all: &[(u32, String)]) {
        let leaves: Vec<u32> = all.chunks(500).map(|c| self.leaf(c)).collect();
        let list = if leaves.len() == 1 {
            leaves[0]
        } else {
            let o = self.cell(4 + 4 * leaves.len());
            let d = self.data(o);
            d[0..2].copy_from_slice(b"ri");
            put16(d, 2, leaves.len() as u16);
            for (i, &x) in leaves.iter().enumerate() {
                put32(d, 4 + 4 * i, x);
            }
            o
        };
        put32(self.data(key), 20, all.len() as u32);
        put32(self.data(key), 28, list);
    }
    fn leaf(&mut self, keys: &[(u32, String)]) -> u32 {
        let (o, hints) = (self.cell(4 + 8 * keys.len()), self.hints);
        let d = self.data(o);
        d[0..2].copy_from_slice(if hints { b"lf" } else { b"lh" });
        put16(d, 2, keys.len() as u16);
        for (i, (k, name)) in keys.iter().enumerate() {
            let h = name.bytes().fold(0u32, |h, c| h.wrapping_mul(37).wrapping_add(upper(c as u16) as u32));
            put32(d, 4 + 8 * i, *k);
            if hints {
                let n = name.len().min(4);
                d[8 + 8 * i..8 + 8 * i + n].copy_from_slice(&name.as_bytes()[..n]);
            } else {
                put32(d, 8 + 8 * i, h);
            }
        }
        o
    }
    // A descriptor of 100 bytes in each. Neighbours in the tree name items that are far apart. Once, before or at the end.
    fn hang_items(&mut self) {
        let n = std::mem::take(&mut self.items);
        let items: Vec<u32> = (0..n).map(|_| self.cell(120)).collect();
        let mut named = vec![0; n];
        for (i, k) in std::mem::take(&mut self.keys).into_iter().enumerate() {
            put32(self.data(k), 44, items[i * 7919 % n]);
            named[i * 7919 % n] += 1;
        }
        for i in 0..n {
            let d = self.data(items[i]);
            d[0..2].copy_from_slice(b"sk");
            for (at, x) in [(4, items[(i + 1) % n]), (8, items[(i + n - 1) % n]), (12, named[i]), (16, 100)] {
                put32(d, at, x);
            }
        }
    }
    pub fn finish(mut self) -> Vec<u8> {
        self.hang_items();
        self.end_bin();
        let n = self.file.len() - 4096;
        let f = &mut self.file;
        f[0..4].copy_from_slice(b"regf");
        put32(f, 4, 1);
        put32(f, 8, 1);
        f[12] = 1;
        for (at, x) in [(20, 1), (24, 5), (32, 1), (36, 32), (40, n as u32), (44, 1)] {
            put32(f, at, x);
        }
        seal(f);
        self.file
    }
}

// Keys with values of each kind, three levels deep, until the bins are about that long; 300 security items.
pub fn mixed(bins: usize) -> Vec<u8> {
    let mut m = Maker::new(300);
    let root = m.key("ROOT", 0);
    let bytes: Vec<u8> = (0..40000u32).map(|i| (i * 7 + i / 251) as u8).collect();
    let (mut tops, mut i) = (vec![], 0);
    while m.file.len() + 260_000 < bins {
        let name = format!("Group{:05}", tops.len());
        let top = m.key(&name, root);
        let mut below = vec![];
        for j in 0..100 {
            let name = format!("Component {j:03} of many");
            let k = m.key(&name, top);
            let mut v = vec![m.value("Enabled", &[1, 0, 0, 0]), m.value("", &bytes[..20]), m.value("Description", &bytes[..120]), m.value("Policy", &bytes[..1500])];
            if i % 64 == 0 {
                v.push(m.value("Blob", &bytes));
            }
            m.hang_values(k, &v);
            let child = m.key("Parameters", k);
            m.hang_keys(k, &[(child, "Parameters".into())]);
            below.push((k, name));
            i += 1;
        }
        m.hang_keys(top, &below);
        tops.push((top, name));
    }
    m.hang_keys(root, &tops);
    m.finish()
}

pub fn wide(n: usize, items: usize, hints: bool) -> Vec<u8> {
    let mut m = Maker::new(items);
    m.hints = hints;
    let root = m.key("ROOT", 0);
    let all: Vec<(u32, String)> = (0..n).map(|i| format!("Component{i:06}")).map(|x| (m.key(&x, root), x)).collect();
    m.hang_keys(root, &all);
    m.finish()
}

// Half of the bins in use, and half free: a key and two values freed one after the other and merged, as deletion leaves them, or zeros.
pub fn left(bins: usize, old: bool) -> Vec<u8> {
    let mut m = Maker::new(1);
    let root = m.key("ROOT", 0);
    let mut i = 0;
    while m.file.len() < bins {
        m.cell(172);
        let name = format!("Component {i:06} of many");
        let freed = [m.key(&name, root), m.value("Description", &[1, 2, 3, 4]), m.value("Enabled", &[1, 0, 0, 0])];
        m.free(&freed, old);
        i += 1;
    }
    m.finish()
}

// One key with so many values.
pub fn values(n: usize) -> Vec<u8> {
    let mut m = Maker::new(1);
    let root = m.key("ROOT", 0);
    let all: Vec<u32> = (0..n).map(|i| m.value(&format!("Component{i:06}"), &[1, 0, 0, 0])).collect();
    m.hang_values(root, &all);
    m.finish()
}

pub fn large_value() -> Vec<u8> {
    let mut m = Maker::new(1);
    let root = m.key("ROOT", 0);
    let bytes: Vec<u8> = (0..1_048_576u32).map(|i| (i * 31 + i / 977) as u8).collect();
    let v = m.value("Large", &bytes);
    m.hang_values(root, &[v]);
    m.finish()
}

// A hive of that many pages and more, before a repair of the first `pages` pages with an odd pattern, and the log.
pub fn torn(bins: usize, pages: usize) -> (Vec<u8>, Vec<u8>) {
    let mut m = Maker::new(1);
    m.key("ROOT", 0);
    m.hang_items();
    m.cell(bins - 4096 - 36 - 4);
    let mut hive = m.finish();
    let n = hive.len() - 4096;
    let mut log = hive[..512].to_vec();
    log[28] = 1;
    seal(&mut log);
    log.extend(b"DIRT");
    log.resize((516 + n / 4096).div_ceil(512) * 512, 0);
    for i in 0..pages {
        let p = i * (n / 512) / pages;
        log[516 + p / 8] |= 1 << (p % 8);
        let mut page = hive[4096 + 512 * p..4096 + 512 * p + 512].to_vec();
        page[100] ^= 0x55;
        log.extend(page);
    }
    hive[4] = 2;
    seal(&mut hive);
    (hive, log)
}

fn rehash(e: &mut [u8]) {
    let first = Idiom::marvin(&e[40..]);
    e[24..32].copy_from_slice(&first.to_le_bytes());
    let second = Idiom::marvin(&e[..32]);
    e[32..40].copy_from_slice(&second.to_le_bytes());
}

fn entry(number: usize, bins: usize, size: usize, count: usize) -> Vec<u8> {
    let mut e = vec![0; size];
    e[..4].copy_from_slice(b"HvLE");
    for (at, n) in [(4, size), (12, number), (16, bins), (20, count)] {
        put32(&mut e, at, n as u32);
    }
    e
}

// The same with a log of Windows 8.1 and later, a hundred pages to an entry; with no pages, one entry of that many bytes and no reference.
pub fn new_torn(bins: usize, pages: usize, padding: usize) -> (Vec<u8>, Vec<u8>) {
    const EACH: usize = 100;
    let (hive, _) = torn(bins, 0);
    let n = hive.len() - 4096;
    let mut log = hive[..512].to_vec();
    log[4] = 1;
    log[28] = 6;
    seal(&mut log);
    for from in (0..pages).step_by(EACH) {
        let count = EACH.min(pages - from);
        let mut e = entry(1 + from / EACH, n, (40 + 520 * count).div_ceil(512) * 512, count);
        for k in 0..count {
            let p = (from + k) * (n / 512) / pages;
            let at = 40 + 8 * count + 512 * k;
            put32(&mut e, 40 + 8 * k, 512 * p as u32);
            put32(&mut e, 44 + 8 * k, 512);
            e[at..at + 512].copy_from_slice(&hive[4096 + 512 * p..4608 + 512 * p]);
            e[at + 100] ^= 0x55;
        }
        rehash(&mut e);
        log.extend(e);
    }
    if pages == 0 {
        let mut e = entry(1, n, padding, 0);
        for (i, b) in e[40..].iter_mut().enumerate() {
            *b = (i * 7 + i / 251) as u8;
        }
        rehash(&mut e);
        log.extend(e);
    }
    (hive, log)
}
