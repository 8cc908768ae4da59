//! The examples of document 01 by its own numbers, and the largest character degrees of document 004.

use crate::calls;
use crate::lent::leaves;
use crate::model::characters::Characters;
use crate::model::sessions::Slip;
use crate::model::words::pack_class;
use crate::report::Group;

/// The largest character degrees of degrees 1 to 16 (document 004).
const LARGEST: [i64; 16] = [1, 1, 2, 3, 6, 16, 35, 90, 216, 768, 2310, 7700, 21450, 69498, 292_864, 1_153_152];

const SHAPE_3_2: u32 = 0x2C00_0000;
const CLASS_3_2: u32 = 0x1400_0000;
const SHAPE_2_1: u32 = 0x2800_0000;
const CLASS_2_1: u32 = 0x3000_0000;
const CLASS_1_1_1: u32 = 0x7000_0000;

pub fn run(_: &Characters, group: &mut Group) {
    words(group);
    sessions(group);
    refused_sessions(group);
    for (degree, largest) in (1..).zip(LARGEST) {
        let degrees = calls::column(pack_class(&vec![1; degree]), &[0; 231]).run;
        group.same(degrees.into_iter().max(), Some(largest), || format!("the largest character degree of {degree}"));
    }
}

/// E1 to E10, E4 as P6 has it: ones in front are dropped.
fn words(group: &mut Group) {
    let mut word = |answer: (u64, u32), expected: (u64, u32), name: &str| {
        group.same(answer, expected, || name.to_string());
    };
    word(calls::shape_word(&[3, 2]).answer, (SHAPE_3_2.into(), 0), "E1");
    word(calls::shape_word(&[16]).answer, (0x3FFF_C000, 0), "E2");
    word(calls::shape_word(&[1; 16]).answer, (0x0000_4000, 0), "E3");
    word(calls::class_word(&[5, 2, 2, 1, 1, 1]).answer, (0x0578_0000, 0), "E5");
    let mut number = |answer: (i64, u32), expected: (i64, u32), name: &str| {
        group.same(answer, expected, || name.to_string());
    };
    number(calls::degree(0x3FFF_E000), (0, 2), "E4");
    number(calls::degree(0x4000_0000), (0, 0), "E4");
    number(calls::class_size(0x5000_0000), (0, 3), "E6");
    number(calls::class_size(0x0000_4000), (0, 4), "E6");
    number(calls::character(SHAPE_3_2, CLASS_3_2), (1, 0), "E7");
    number(calls::character(SHAPE_3_2, 0x0C00_0000), (-1, 0), "E8");
    number(calls::character(SHAPE_3_2, 0x0400_0000), (0, 0), "E9");
    number(calls::character(SHAPE_3_2, 0x7C00_0000), (5, 0), "E10");
    number(calls::character(SHAPE_2_1, 0x1000_0000), (-1, 0), "(2,1) on (3)");
    group.same(calls::good_shape(0x4000_0000), ((0, 1), 0), || "E4, one dropped".to_string());
}

/// E11, E12 and E13: from an opening on a page of two words, the strikes, each a preview and its commit, and what they
/// leave. The line of a strike is the only new one, 0 where there is none.
fn sessions(group: &mut Group) {
    let mut play = |name: &str, shape: u32, class: u32, strikes: &[(u64, u64, i64)]| {
        let opened = calls::open(shape, class, &[7, 7]);
        let mut slip = Slip { shape, class, lines: 1, ..Slip::default() };
        let mut page = vec![u64::from(shape) * (1 << 32) + u64::from(class), 0];
        group.same((opened.answer, opened.run), ((0, slip), page.clone()), || name.to_string());
        for &(cycle, line, settled) in strikes {
            let new: Vec<u64> = [line].into_iter().filter(|&line| line != 0).collect();
            let strip = [&new[..], &[7; 3][new.len()..]].concat();
            let previewed = calls::preview(slip, &page, 0, cycle, &[7; 3]);
            let expected = leaves(leaves((new.len() as u64, 0), &page), &strip);
            group.same(previewed, expected, || format!("{name}, preview of {cycle}"));
            let committed = calls::commit(slip, &page, 0, cycle, &strip);
            slip = Slip { settled, lines: new.len() as u64, steps: slip.steps + 1, ..slip };
            page = vec![line, 0];
            let expected = leaves(leaves((0, slip), &strip), &page);
            group.same(committed, expected, || format!("{name}, strike {cycle}"));
        }
    };
    play("E11", SHAPE_3_2, CLASS_3_2, &[(3, 0x9000_0000_2000_0000, 0), (2, 0, 1)]);
    play("E12", SHAPE_3_2, CLASS_3_2, &[(2, 0x3800_0000_1000_0000, 0), (3, 0, 1)]);
    play("E13", SHAPE_2_1, CLASS_2_1, &[(2, 0, 0)]);
}

/// The examples to be run: an empty page, a page of one word, a line that is no line.
fn refused_sessions(group: &mut Group) {
    let settled = Slip { settled: 1, ..Slip::default() };
    group.same(calls::open(0, 0, &[]).answer, (0, settled), || "degree 0 on an empty page".to_string());
    let refused = calls::open(0x2000_0000, 0x4000_0000, &[]).answer;
    group.same(refused, (10, Slip::default()), || "degree 1 on an empty page".to_string());
    let opened = calls::open(SHAPE_2_1, CLASS_1_1_1, &[5]);
    let (slip, page) = (opened.answer.1, opened.run);
    // The new lines are (1,1) and (2), on (1,1).
    let new = [0x1000_0000_6000_0000, 0x3000_0000_6000_0000];
    let mut previewed = |before: &[u64], answer: (u64, u32), after: &[u64]| {
        let previewed = calls::preview(slip, &page, 0, 1, before);
        let length = before.len();
        let what = || format!("(2,1) on (1^3) on one word, preview into {length} words");
        group.same(previewed, leaves(leaves(answer, &page), after), what);
    };
    previewed(&[], (0, 18), &[]);
    previewed(&[5], (0, 18), &[5]);
    previewed(&[5; 2], (2, 0), &new);
    previewed(&[5; 3], (2, 0), &[new[0], new[1], 5]);
    let mut committed = |page: &[u64], strip: &[u64], refused: u32| {
        let committed = calls::commit(slip, page, 0, 1, strip);
        let what = || format!("(2,1) on (1^3) on {page:x?}, commit of {strip:x?}");
        group.same(committed, leaves(leaves((refused, slip), strip), page), what);
    };
    committed(&page, &new, 10);
    committed(&page, &[new[0], new[1], 5], 10);
    committed(&page, &new[..1], 19);
    committed(&page, &[], 19);
    committed(&page, &[new[1], new[0]], 19);
    committed(&[0], &new, 7);
    committed(&[0], &[], 7);
    let previewed = calls::preview(slip, &[0], 0, 1, &[]);
    group.same(previewed, leaves(leaves((0, 7), &[0]), &[]), || "lines 1 with word 0, preview".to_string());
}
