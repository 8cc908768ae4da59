//! Texts of no bytes and of megabytes, pages of every length, and how long a text can get.

use super::texts::{compare_load, compare_save, TEXT_ROOM};
use super::Tally;
use crate::model::characters::Characters;
use crate::model::sessions::{Slip, PAGE_LIMIT};
use crate::model::words::{pack_class, pack_shape};
use crate::report::Group;

/// How many lines, or parts, or figures, a long text has.
const MANY: usize = 300_000;

pub fn run(_: &Characters, group: &mut Group) {
    let (mut saved, mut loaded) = (Tally::default(), Tally::default());
    for text in long() {
        for words in [0, PAGE_LIMIT] {
            compare_load(group, &mut loaded, &text, &vec![7; words]);
        }
    }
    pages(group, &mut saved, &mut loaded);
    longest(group, &mut saved);
    group.same(saved.lacking(&[0, 6, 7], 1), vec![], || "save refusals not met".to_string());
    group.same(loaded.lacking(&[0, 6, 10, 16], 1), vec![], || "load refusals not met".to_string());
    group.note(format!("saves: {}", saved.said()));
    group.note(format!("loads: {}", loaded.said()));
}

/// A text of degree 16 that says that it has so many lines.
fn head(lines: usize) -> String {
    format!("degree=16\nshape=16\nclass=16\nsteps=0\nsettled=0\nlines={lines}\n")
}

/// No bytes; many lines, good ones and others; one line of megabytes; and numbers and lists that hardly end.
fn long() -> Vec<Vec<u8>> {
    let good = "line=+;1;1\n".repeat(MANY);
    let filled = |byte: u8| vec![byte; 3_000_000];
    let mut all: Vec<Vec<u8>> = vec![vec![]];
    all.extend([0, b'\n', b'0', b'9', b'x', b',', 0xFF].into_iter().map(filled));
    let lines = [
        head(MANY) + &good,
        head(MANY - 1) + &good,
        head(MANY + 1) + &good,
        head(MANY + 1) + &good + "line=+;1;1",
        head(MANY + 1) + &good + "line=+;1;2,\n",
        head(MANY) + &"\n".repeat(MANY),
        head(1) + "line=+;" + &"1,".repeat(MANY) + "1;1\n",
        head(1) + "line=+;1;" + &"0".repeat(MANY) + "1\n",
        head(1) + "line=+;" + &";".repeat(MANY) + "\n",
        head(1) + "line=" + &"+".repeat(MANY) + ";1;1\n",
        head(1) + &"line=+;1;1".repeat(MANY) + "\n",
    ];
    all.extend(lines.map(String::into_bytes));
    for (at, key) in ["degree", "shape", "class", "steps", "settled", "lines"].into_iter().enumerate() {
        for value in ["1", "0", "9", "1,", "-"] {
            let head = head(0);
            let mut lines: Vec<&str> = head.lines().collect();
            let endless = format!("{key}={}", value.repeat(MANY));
            lines[at] = &endless;
            all.push((lines.join("\n") + "\n").into_bytes());
        }
    }
    all
}

/// Loads onto pages of every length and beyond, and saves from them.
fn pages(group: &mut Group, saved: &mut Tally, loaded: &mut Tally) {
    let text = head(5) + &"line=+;1;1\nline=-;3,1;2,2\n".repeat(2) + "line=-;2;1,1\n";
    for words in 0..=PAGE_LIMIT + 2 {
        let before = vec![0x0123_4567_89AB_CDEF; words];
        if let Some((slip, page)) = compare_load(group, loaded, text.as_bytes(), &before) {
            compare_save(group, saved, slip, &page, &vec![7; text.len()]);
        }
    }
    let full = head(PAGE_LIMIT) + &"line=-;2,1;1,1,1\n".repeat(PAGE_LIMIT);
    for words in PAGE_LIMIT - 1..=PAGE_LIMIT + 1 {
        compare_load(group, loaded, full.as_bytes(), &vec![7; words]);
    }
    let slip = Slip { shape: pack_shape(&[16]), class: pack_class(&[16]), lines: PAGE_LIMIT as u64, ..Slip::default() };
    for words in PAGE_LIMIT - 1..=PAGE_LIMIT + 1 {
        compare_save(group, saved, slip, &vec![0x2800_0000_7000_0000; words], &vec![7; TEXT_ROOM]);
    }
}

/// What the header says of room: the longest lines that there are, as many as are sound, and the longest head.
fn longest(group: &mut Group, saved: &mut Tally) {
    let ones = |degree: usize| (pack_shape(&vec![1; degree]), pack_class(&vec![1; degree]));
    let (shape, class) = ones(16);
    let one = Slip { shape, class, lines: 1, ..Slip::default() };
    let page = [(1 << 63) + (u64::from(shape) << 32) + u64::from(class)];
    let text = compare_save(group, saved, one, &page, &[7; 1000]).unwrap();
    let line = text.split_inclusive(|&byte| byte == b'\n').last().unwrap().len();
    group.same(line, 71, || "the longest line".to_string());
    let head = Slip { settled: -20_922_789_888_000, lines: 0, steps: 35_951_249_665_217, ..one };
    let text = compare_save(group, saved, head, &[], &[7; 256]).unwrap();
    group.same(text.len() + "4096".len() - "0".len() < 256, true, || "the longest head".to_string());
    let (rows, cycles) = ones(12);
    let many = Slip { lines: PAGE_LIMIT as u64, ..one };
    let page = vec![(u64::from(rows) << 32) + u64::from(cycles); PAGE_LIMIT];
    let text = compare_save(group, saved, many, &page, &vec![7; TEXT_ROOM]).unwrap();
    group.same(text.len() < TEXT_ROOM, true, || "the longest text".to_string());
}
