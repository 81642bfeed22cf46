// bench ROW SIDE FOLDER: runs one row of docs/BENCHMARKS.md once. bench times FOLDER [ROW..]: best of 20 of each row. bench make FOLDER: writes the hives.
mod build;
mod check;
mod make;
mod namesakes;
mod new_log;
mod quick;
mod security;
mod export;
mod walk;
use build::Names;
use check::{Flaw, Idiom, Plain, Report};
use std::fs::{read, write};
use std::hint::black_box;
use std::time::Instant;

// The states of kiweamotu.h that are asked here.
const THERE: u64 = 4;
const OPENS: u64 = 6;
const CLOSES: u64 = 7;
const WRITTEN: u64 = 8;

#[repr(C)]
#[derive(Clone, Copy)]
pub struct HiveAnswer {
    number: u32,
    place: u32,
    key: u32,
    value: u32,
}
#[repr(C)]
struct HiveReport {
    answer: HiveAnswer,
    report: [u64; 5],
}
#[repr(C)]
struct HiveCopy {
    answer: HiveAnswer,
    length: u64,
}
#[repr(C)]
struct HiveRecovery {
    answer: HiveAnswer,
    state: u64,
    pages: u64,
}
#[repr(C)]
struct HivePage {
    answer: HiveAnswer,
    state: u64,
    page: u64,
    from: u64,
    to: u64,
}
#[repr(C)]
struct HiveWalk {
    answer: HiveAnswer,
    state: u64,
    depth: u64,
    name: u64,
    length: u64,
    narrow: u64,
}
#[repr(C)]
struct HiveExport {
    answer: HiveAnswer,
    state: u64,
    depth: u64,
    due: u64,
    frames: u64,
    bytes: u64,
}
#[repr(C)]
struct HiveBuilt {
    answer: HiveAnswer,
    at: u64,
    length: u64,
}
#[repr(C)]
struct HiveRows {
    answer: HiveAnswer,
    state: u64,
    rows: u64,
}
#[repr(C)]
struct HiveLog {
    answer: HiveAnswer,
    entries: u64,
    numbers: [u64; 2],
    end: u64,
    bins: u64,
}
unsafe extern "C" {
    fn hive_check(h: *const u8, n: usize, m: *mut u8, k: usize) -> HiveReport;
    fn hive_find_key(h: *const u8, n: usize, p: *const u16, k: usize) -> HiveAnswer;
    fn hive_quick_key(h: *const u8, n: usize, p: *const u16, k: usize) -> HiveAnswer;
    fn hive_value_copy(h: *const u8, n: usize, p: *const u16, k: usize, x: *const u16, j: usize, o: *mut u8, m: usize) -> HiveCopy;
    fn hive_walk_begin(h: *const u8, n: usize, l: *mut u32, k: usize) -> HiveWalk;
    fn hive_walk_step(h: *const u8, n: usize, l: *mut u32, k: usize, depth: usize) -> HiveWalk;
    fn hive_export_begin(h: *const u8, n: usize, m: *mut u8, j: usize, l: *mut u32, k: usize) -> HiveExport;
    fn hive_export_run(h: *const u8, n: usize, l: *mut u32, k: usize, depth: usize, due: usize, o: *mut u8, m: usize) -> HiveExport;
    fn hive_build(s: *const u8, n: usize, d: *const u8, k: usize, o: *mut u8, m: usize) -> HiveBuilt;
    fn hive_remnants(h: *const u8, n: usize, from: usize, r: *mut u32, k: usize) -> HiveRows;
    fn hive_recover_page(h: *mut u8, n: usize, l: *const u8, k: usize, page: usize) -> HiveRecovery;
    fn hive_recover_close(h: *mut u8, n: usize, l: *const u8, k: usize) -> HiveRecovery;
    fn hive_recover_next(l: *const u8, k: usize, from: usize) -> HivePage;
    fn hive_recover_start(h: *const u8, n: usize, l: *const u8, k: usize) -> HiveRecovery;
    fn hive_recover_all(h: *mut u8, n: usize, l: *const u8, k: usize) -> HiveRecovery;
    fn hive_recover_mark_pages(l: *const u8, k: usize, m: *mut u8, j: usize) -> HiveRecovery;
    fn hive_recover_log(l: *const u8, k: usize) -> HiveLog;
}

fn answer<T>(a: HiveAnswer, x: T) -> Result<T, Flaw> {
    if a.number == 0 { Ok(x) } else { Err(Flaw(a.number, a.place)) }
}

// One row's input: all that a side is given.
pub struct Input {
    kind: Kind,
    hive: Vec<u8>,
    log: Vec<u8>,
    path: Vec<u16>,
    out: Vec<u8>,
    rows: Vec<u32>,
}

#[derive(Clone, Copy, PartialEq)]
enum Kind {
    Check,
    Find,
    Quick,
    Copy,
    Walk,
    Export,
    Build,
    Deleted,
    Repair,
    Sample,
    All,
    New,
    Hash,
}

// The pages that a sample of a repair asks for: 100 of 64 MiB, evenly spread.
const STEP: usize = 131_072 / 100;

#[derive(PartialEq, Debug)]
enum Outcome {
    Check(Result<Report, Flaw>),
    Find(Result<u32, Flaw>),
    Copy(Result<usize, Flaw>),
    Walk(Result<(usize, usize), Flaw>),
    Deleted(Result<usize, Flaw>),
    Repair(Result<usize, Flaw>),
    All(Result<(usize, usize), Flaw>),
    Hash(Result<(usize, usize), Flaw>),
}

// How many pages a map has, and the places where they go, as the host that stores them would go over it.
fn marked(map: &[u8]) -> (usize, usize) {
    let pages = map.iter().enumerate().filter(|(_, b)| **b != 0).flat_map(|(j, b)| (0..8).filter(move |i| b >> i & 1 == 1).map(move |i| 8 * j + i));
    pages.fold((0, 0), |(n, places), p| (n + 1, places ^ (4096 + 512 * p)))
}

const LARGE: [u16; 5] = [76, 97, 114, 103, 101];

fn rattle(i: &mut Input) -> Outcome {
    let (h, n) = (i.hive.as_mut_ptr(), i.hive.len());
    let (l, k) = (i.log.as_ptr(), i.log.len());
    unsafe {
        match i.kind {
            Kind::Check => {
                let r = hive_check(h, n, i.out.as_mut_ptr(), i.out.len());
                let [bins, keys, values, used, free] = r.report;
                Outcome::Check(answer(r.answer, Report { bins, keys, values, used, free }))
            }
            Kind::Find => {
                let a = hive_find_key(h, n, i.path.as_ptr(), i.path.len());
                Outcome::Find(answer(a, a.value))
            }
            Kind::Quick => {
                let a = hive_quick_key(h, n, i.path.as_ptr(), i.path.len());
                Outcome::Find(answer(a, a.value))
            }
            Kind::Copy => {
                let c = hive_value_copy(h, n, i.path.as_ptr(), i.path.len(), LARGE.as_ptr(), 5, i.out.as_mut_ptr(), i.out.len());
                Outcome::Copy(answer(c.answer, c.length as usize))
            }
            Kind::Export => {
                let (mut frames, mut bytes) = (0, 0);
                let (l, k) = (i.rows.as_mut_ptr(), i.rows.len());
                let (out, map) = i.out.split_at_mut(EXPORT_ROOM);
                let mut e = hive_export_begin(h, n, map.as_mut_ptr(), map.len(), l, k);
                while e.state == WRITTEN {
                    e = hive_export_run(h, n, l, k, e.depth as usize, e.due as usize, out.as_mut_ptr(), out.len());
                    frames += e.frames as usize;
                    bytes += e.bytes as usize;
                }
                Outcome::Walk(answer(e.answer, (frames, bytes)))
            }
            Kind::Build => {
                let b = hive_build(h, n, l, k, i.out.as_mut_ptr(), i.out.len());
                Outcome::Copy(if b.answer.number == 0 { Ok(b.length as usize) } else { Err(Flaw(b.answer.number, b.at as u32)) })
            }
            Kind::Walk => {
                let (mut count, mut sum) = (0, 0usize);
                let (l, k) = (i.rows.as_mut_ptr(), i.rows.len());
                let mut w = hive_walk_begin(h, n, l, k);
                while w.state == OPENS || w.state == CLOSES {
                    let told = if w.state == OPENS { w.name ^ w.length ^ w.narrow } else { 0 };
                    sum = sum.wrapping_mul(37).wrapping_add(w.answer.value as usize ^ told as usize);
                    count += 1;
                    w = hive_walk_step(h, n, l, k, w.depth as usize);
                }
                Outcome::Walk(answer(w.answer, (count, sum)))
            }
            Kind::Deleted => {
                let r = hive_remnants(h, n, 0, i.rows.as_mut_ptr(), i.rows.len());
                Outcome::Deleted(answer(r.answer, r.rows as usize))
            }
            Kind::Repair => {
                let mut done = 0;
                let mut p = hive_recover_next(l, k, 0);
                while p.state == THERE {
                    hive_recover_page(h, n, l, k, p.page as usize);
                    done += 1;
                    p = hive_recover_next(l, k, p.page as usize + 1);
                }
                Outcome::Repair(answer(hive_recover_close(h, n, l, k).answer, done))
            }
            Kind::All | Kind::New => {
                hive_recover_start(h, n, l, k);
                hive_recover_all(h, n, l, k);
                hive_recover_mark_pages(l, k, i.out.as_mut_ptr(), i.out.len());
                let told = marked(&i.out);
                Outcome::All(answer(hive_recover_close(h, n, l, k).answer, told))
            }
            Kind::Hash => {
                let g = hive_recover_log(l, k);
                Outcome::Hash(answer(g.answer, (g.entries as usize, g.end as usize)))
            }
            Kind::Sample => {
                for from in 0..100 {
                    let p = hive_recover_next(l, k, from * STEP);
                    hive_recover_page(h, n, l, k, p.page as usize);
                }
                Outcome::Repair(Ok(100))
            }
        }
    }
}

fn rust<S: Names>(i: &mut Input) -> Outcome {
    match i.kind {
        Kind::Check => Outcome::Check(check::check::<S>(&i.hive, &mut i.out)),
        Kind::Find => Outcome::Find(check::find::<S>(&i.hive, &i.path)),
        Kind::Quick => Outcome::Find(quick::find::<S>(&i.hive, &i.path)),
        Kind::Copy => Outcome::Copy(check::copy::<S>(&i.hive, &i.path, &LARGE, &mut i.out)),
        Kind::Walk => Outcome::Walk(walk::all::<S>(&i.hive, &mut i.rows)),
        Kind::Export => {
            let (out, map) = i.out.split_at_mut(EXPORT_ROOM);
            Outcome::Walk(export::all::<S>(&i.hive, map, &mut i.rows, out))
        }
        Kind::Build => Outcome::Copy(build::build::<S>(&i.hive, &i.log, &mut i.out)),
        Kind::Deleted => Outcome::Deleted(check::remnants::<S>(&i.hive, &mut i.rows)),
        Kind::Repair => {
            let (mut done, mut at) = (0, check::next::<S>(&i.log, 0));
            while let Some(p) = at {
                check::page::<S>(&mut i.hive, &i.log, p).unwrap();
                done += 1;
                at = check::next::<S>(&i.log, p + 1);
            }
            Outcome::Repair(check::close::<S>(&mut i.hive, &i.log).map(|_| done))
        }
        Kind::All => {
            black_box(check::start::<S>(&i.hive, &i.log).is_ok());
            check::all::<S>(&mut i.hive, &i.log).unwrap();
            check::mark::<S>(&i.log, &mut i.out).unwrap();
            let told = marked(&i.out);
            Outcome::All(check::close::<S>(&mut i.hive, &i.log).map(|_| told))
        }
        Kind::New => {
            black_box(new_log::start::<S>(&i.hive, &i.log).is_ok());
            new_log::all::<S>(&mut i.hive, &i.log).unwrap();
            new_log::mark::<S>(&i.log, &mut i.out).unwrap();
            let told = marked(&i.out);
            Outcome::All(new_log::close::<S>(&mut i.hive, &i.log).map(|_| told))
        }
        Kind::Hash => Outcome::Hash(new_log::chain::<S>(&i.log).map(|c| (c.entries, c.end))),
        Kind::Sample => {
            for from in 0..100 {
                let p = check::next::<S>(&i.log, from * STEP).unwrap();
                check::page::<S>(&mut i.hive, &i.log, p).unwrap();
            }
            Outcome::Repair(Ok(100))
        }
    }
}

// The counted functions: callgrind counts what runs inside them.
#[unsafe(no_mangle)]
#[inline(never)]
fn measured(side: &str, i: &mut Input) -> Outcome {
    match side {
        "rattle" => rattle(i),
        "plain" => rust::<Plain>(i),
        _ => rust::<Idiom>(i),
    }
}

// A run's buffer, before the check's map.
const EXPORT_ROOM: usize = 2 << 20;

const ROWS: [&str; 43] = [
    "check-1", "check-4", "check-16", "check-64", "check-1024", "check-wide", "check-items", "check-values", "check-hints", "last-100", "absent-100", "last-5000", "absent-5000", "last-60000", "absent-60000",
    "quick-last-100", "quick-absent-100", "quick-last-5000", "quick-absent-5000", "quick-last-60000", "quick-absent-60000",
    "copy", "walk-1", "walk-64", "walk-wide", "export-1", "export-64", "export-wide", "build-1", "build-64", "build-wide", "deleted-1", "deleted-64", "clean-64", "repair-1000", "repair-1000-of-131072", "repair-100000", "all-1000", "all-1000-of-131072", "all-100000",
    "new-1000", "new-60000", "hash-30M",
];

fn input(row: &str, folder: &str) -> Input {
    let (kind, file) = match row.split_once('-') {
        Some(("check", "wide")) => (Kind::Check, "wide-60000".into()),
        Some(("check", "items")) => (Kind::Check, "items-20000".into()),
        Some(("check", "values")) => (Kind::Check, "values-30000".into()),
        Some(("check", "hints")) => (Kind::Check, "hints-60000".into()),
        Some(("check", n)) => (Kind::Check, format!("mixed-{n}")),
        Some(("last" | "absent", n)) => (Kind::Find, format!("wide-{n}")),
        Some(("quick", rest)) => (Kind::Quick, format!("wide-{}", rest.split_once('-').unwrap().1)),
        Some(("walk", "wide")) => (Kind::Walk, "wide-60000".into()),
        Some(("walk", n)) => (Kind::Walk, format!("mixed-{n}")),
        Some(("export", "wide")) => (Kind::Export, "wide-60000".into()),
        Some(("export", n)) => (Kind::Export, format!("mixed-{n}")),
        Some(("build", "wide")) => (Kind::Build, "wide-60000.frames".into()),
        Some(("build", n)) => (Kind::Build, format!("mixed-{n}.frames")),
        Some(("deleted", n)) => (Kind::Deleted, format!("left-{n}")),
        Some(("clean", n)) => (Kind::Deleted, format!("zeros-{n}")),
        Some(("repair", n)) => (Kind::Repair, format!("torn-{n}")),
        Some(("all", n)) => (Kind::All, format!("torn-{n}")),
        Some(("new", n)) => (Kind::New, format!("new-{n}")),
        Some(("hash", n)) => (Kind::Hash, format!("hash-{n}")),
        Some(("sample", n)) => (Kind::Sample, format!("torn-{n}")),
        _ => (Kind::Copy, "large".into()),
    };
    let hive = read(format!("{folder}/{file}")).unwrap();
    let log = read(format!("{folder}/{file}.log")).unwrap_or_default();
    let path = match row.strip_prefix("quick-").unwrap_or(row).split_once('-') {
        Some(("last", n)) => format!("component{:06}", n.parse::<usize>().unwrap() - 1),
        Some(("absent", _)) => "component999999".into(),
        _ => String::new(),
    };
    let out = vec![0; if kind == Kind::Check { hive.len() / 64 } else if kind == Kind::Export { EXPORT_ROOM + hive.len() / 64 } else if kind == Kind::Build { 3 * hive.len() + 8192 } else if kind == Kind::New || kind == Kind::All { hive.len() / 4096 } else { 1_048_576 }];
    let rows = vec![0; if kind == Kind::Deleted { hive.len() / 24 * 4 } else if kind == Kind::Walk || kind == Kind::Export { 1539 } else { 0 }];
    Input { kind, hive, log, path: path.encode_utf16().collect(), out, rows }
}

fn times(folder: &str, rows: &[&str]) {
    println!("row,rattle us,plain us,idiom us,bytes,keys");
    for &row in rows {
        let rounds = if row == "repair-100000" { 1 } else if row == "repair-1000-of-131072" || row == "check-1024" { 3 } else { 20 };
        let mut best = [f64::MAX; 3];
        let mut outcomes = vec![];
        let mut size = (0, 0);
        for (k, side) in ["rattle", "plain", "idiom"].iter().enumerate() {
            let fresh = input(row, folder);
            for _ in 0..rounds {
                let mut i = Input { hive: fresh.hive.clone(), log: fresh.log.clone(), path: fresh.path.clone(), out: fresh.out.clone(), rows: fresh.rows.clone(), ..fresh };
                let start = Instant::now();
                let outcome = black_box(measured(side, black_box(&mut i)));
                best[k] = best[k].min(start.elapsed().as_secs_f64() * 1e6);
                if let Outcome::Check(Ok(r)) = &outcome {
                    size = (i.hive.len(), r.keys);
                }
                outcomes.push((outcome, i.hive, i.out, i.rows));
                outcomes.dedup();
            }
        }
        assert!(outcomes.len() == 1, "{row}: the sides differ: {:?}", outcomes.iter().map(|o| &o.0).collect::<Vec<_>>());
        println!("{row},{:.1},{:.1},{:.1},{},{}", best[0], best[1], best[2], size.0, size.1);
    }
}

// The export of a hive, in one run.
fn frames(hive: &[u8]) -> Vec<u8> {
    let mut out = vec![0; 2 * hive.len()];
    let (_, bytes) = export::all::<Idiom>(hive, &mut vec![0; hive.len() / 64], &mut vec![0; 1539], &mut out).unwrap();
    out.truncate(bytes);
    out
}

fn make_all(folder: &str) {
    for n in [1, 4, 16, 64, 1024] {
        write(format!("{folder}/mixed-{n}"), make::mixed(n << 20)).unwrap();
    }
    for n in [100, 5000, 60000] {
        write(format!("{folder}/wide-{n}"), make::wide(n, 1, false)).unwrap();
    }
    for name in ["mixed-1", "mixed-64", "wide-60000"] {
        write(format!("{folder}/{name}.frames"), frames(&read(format!("{folder}/{name}")).unwrap())).unwrap();
    }
    write(format!("{folder}/items-20000"), make::wide(19_999, 20_000, false)).unwrap();
    write(format!("{folder}/values-30000"), make::values(30_000)).unwrap();
    write(format!("{folder}/hints-60000"), make::wide(60_000, 1, true)).unwrap();
    write(format!("{folder}/large"), make::large_value()).unwrap();
    for n in [1, 64] {
        write(format!("{folder}/left-{n}"), make::left(n << 20, true)).unwrap();
        write(format!("{folder}/zeros-{n}"), make::left(n << 20, false)).unwrap();
    }
    for (name, bins, pages) in [("1000", 1 << 20, 1000), ("1000-of-131072", 64 << 20, 1000), ("100000", 64 << 20, 100_000)] {
        let (hive, log) = make::torn(bins, pages);
        write(format!("{folder}/torn-{name}"), hive).unwrap();
        write(format!("{folder}/torn-{name}.log"), log).unwrap();
    }
    for (name, bins, pages) in [("new-1000", 1 << 20, 1000), ("new-60000", 32 << 20, 60_000), ("hash-30M", 1 << 20, 0)] {
        let (hive, log) = make::new_torn(bins, pages, 30 << 20);
        write(format!("{folder}/{name}"), hive).unwrap();
        write(format!("{folder}/{name}.log"), log).unwrap();
    }
}

fn main() {
    let words: Vec<String> = std::env::args().skip(1).collect();
    match words.iter().map(String::as_str).collect::<Vec<_>>()[..] {
        ["make", folder] => make_all(folder),
        ["times", folder] => times(folder, &ROWS),
        ["times", folder, ref rows @ ..] => times(folder, rows),
        ["rows"] => ROWS.iter().for_each(|r| println!("{r}")),
        [row, side, folder] => {
            let mut i = input(row, folder);
            println!("{:?}", black_box(measured(side, black_box(&mut i))));
        }
        _ => std::process::exit(2),
    }
}
