//! Texts by hand: each rule of the form by texts that keep it or break it, with the answer that they must get.

use super::texts::compare_load;
use super::Tally;
use crate::calls;
use crate::model::characters::Characters;
use crate::report::Group;

/// The refusal number of a load, and the text's line.
type Refusal = (u32, u64);

const TAKEN: Refusal = (0, 0);
const NOT_SOUND: Refusal = (7, 0);
const FULL: Refusal = (10, 0);

/// A text of seven lines: that of the request.
const LINES: [&str; 7] = ["degree=5", "shape=3,2", "class=3,2", "steps=1", "settled=0", "lines=1", "line=-;1,1;2"];

/// What stands in the place of a line, by its number, and what is then given: `BAD` is 16 at this line.
const BAD: Refusal = (16, 0);
const CHANGES: &[(usize, &str, Refusal)] = &[
    (1, "degree=5", TAKEN),
    (1, "degree=4", BAD),
    (1, "degree=6", BAD),
    (1, "degree=", BAD),
    (1, "degree=05", BAD),
    (1, "degree=+5", BAD),
    (1, "degree=-5", BAD),
    (1, "degree=5 ", BAD),
    (1, " degree=5", BAD),
    (1, "degree=5\r", BAD),
    (1, "degree= 5", BAD),
    (1, "degree=5.", BAD),
    (1, "degree=0x5", BAD),
    (1, "degree=5=", BAD),
    (1, "degree:5", BAD),
    (1, "Degree=5", BAD),
    (1, "degree", BAD),
    (1, "", BAD),
    (1, "shape=5", BAD),
    (1, "degree=261", BAD),
    (1, "degree=4294967301", BAD),
    (1, "degree=18446744073709551615", BAD),
    (1, "degree=18446744073709551616", BAD),
    (1, "degree=18446744073709551621", BAD),
    (2, "shape=3,2", TAKEN),
    (2, "shape=5", TAKEN),
    (2, "shape=1,1,1,1,1", TAKEN),
    (2, "shape=17", BAD),
    (2, "shape=2,3", BAD),
    (2, "shape=3,2,0", BAD),
    (2, "shape=0", BAD),
    (2, "shape=3,,2", BAD),
    (2, "shape=,3,2", BAD),
    (2, "shape=3,2,", BAD),
    (2, "shape=3;2", BAD),
    (2, "shape=3, 2", BAD),
    (2, "shape=03,2", BAD),
    (2, "shape=3,02", BAD),
    (2, "shape=+3,2", BAD),
    (2, "shape=16,1", BAD),
    (2, "shape=9,8", BAD),
    (2, "shape=259,2", BAD),
    (2, "shape=3,258", BAD),
    (2, "shape=1,1,1,1,1,1,1,1,1,1,1,1,1,1,1,1,1", BAD),
    (2, "shape=18446744073709551619,2", BAD),
    (2, "shape=99999999999999999999999999999999999999999", BAD),
    (2, "shape=4,2", (16, 1)),
    (2, "shape=16", (16, 1)),
    (2, "shape=", (16, 1)),
    (2, "class=3,2", BAD),
    (3, "class=5", TAKEN),
    (3, "class=1,1,1,1,1", TAKEN),
    (3, "class=2,3", BAD),
    (3, "class=17", BAD),
    (3, "class=3,2,0", BAD),
    (3, "class=03,2", BAD),
    (3, "class=9,8", BAD),
    (3, "class=3,1", NOT_SOUND),
    (3, "class=16", NOT_SOUND),
    (3, "class=", NOT_SOUND),
    (3, "shape=3,2", BAD),
    (4, "steps=0", TAKEN),
    (4, "steps=203", TAKEN),
    (4, "steps=204", NOT_SOUND),
    (4, "steps=9223372036854775807", NOT_SOUND),
    (4, "steps=9223372036854775808", BAD),
    (4, "steps=18446744073709551616", BAD),
    (4, "steps=18446744073709551617", BAD),
    (4, "steps=-1", BAD),
    (4, "steps=-0", BAD),
    (4, "steps=+1", BAD),
    (4, "steps=007", BAD),
    (4, "steps=00", BAD),
    (4, "steps=", BAD),
    (5, "settled=118", TAKEN),
    (5, "settled=-118", TAKEN),
    (5, "settled=119", NOT_SOUND),
    (5, "settled=-119", NOT_SOUND),
    (5, "settled=9223372036854775807", NOT_SOUND),
    (5, "settled=-9223372036854775808", NOT_SOUND),
    (5, "settled=9223372036854775808", BAD),
    (5, "settled=-9223372036854775809", BAD),
    (5, "settled=18446744073709551616", BAD),
    (5, "settled=-18446744073709551616", BAD),
    (5, "settled=-0", BAD),
    (5, "settled=+1", BAD),
    (5, "settled=-01", BAD),
    (5, "settled=--1", BAD),
    (5, "settled=- 1", BAD),
    (5, "settled=-", BAD),
    (5, "settled=1-", BAD),
    (5, "settled=", BAD),
    (6, "lines=0", BAD),
    (6, "lines=2", BAD),
    (6, "lines=01", BAD),
    (6, "lines=", BAD),
    (6, "lines=-1", BAD),
    (6, "lines=257", BAD),
    (6, "lines=4294967297", BAD),
    (6, "lines=18446744073709551617", BAD),
    (6, "line=1", BAD),
    (7, "line=+;1,1;2", TAKEN),
    (7, "line=-;5;5", NOT_SOUND),
    (7, "line=-;4;4", TAKEN),
    (7, "line=-;;", NOT_SOUND),
    (7, "line=-;;2", NOT_SOUND),
    (7, "line=-;1,1;", NOT_SOUND),
    (7, "line=-;1,1;3", NOT_SOUND),
    (7, "line=-;6;6", NOT_SOUND),
    (7, "line=-;16;16", NOT_SOUND),
    (7, "line=-;17;16", BAD),
    (7, "line=-;16;17", BAD),
    (7, "line=-;1,2;3", BAD),
    (7, "line=-;3;1,2", BAD),
    (7, "line=-;0;", BAD),
    (7, "line=;1,1;2", BAD),
    (7, "line=*;1,1;2", BAD),
    (7, "line=+-;1,1;2", BAD),
    (7, "line=-1,1;2", BAD),
    (7, "line=-;1,1", BAD),
    (7, "line=-;1,1;2;", BAD),
    (7, "line=-;1,1;2;2", BAD),
    (7, "line=-,1,1,2", BAD),
    (7, "line=-;01,1;2", BAD),
    (7, "line=-;1,1;02", BAD),
    (7, "line=-;1,1,;2", BAD),
    (7, "line=-;1,1;2 ", BAD),
    (7, "lines=-;1,1;2", BAD),
    (7, "", BAD),
];

/// Whole texts, and what is given.
fn whole() -> Vec<(String, Refusal)> {
    let text = LINES.join("\n") + "\n";
    let first = |count: usize| LINES[..count].iter().map(|line| format!("{line}\n")).collect::<String>();
    let cut = (0..7).map(|count| (first(count), (16, if count == 6 { 6 } else { count as u64 + 1 })));
    let open = (1..7).map(|count| (first(count).trim_end().to_string(), (16, count as u64)));
    let changed = |pairs: &[(&str, &str)]| pairs.iter().fold(text.clone(), |text, (old, new)| text.replace(old, new));
    let mut all: Vec<(String, Refusal)> = cut.chain(open).collect();
    all.extend([
        (text.trim_end().to_string(), (16, 7)),
        (text.clone() + "\n", (16, 6)),
        (text.clone() + "x", (16, 6)),
        (text.clone() + "\0", (16, 6)),
        ("\n".to_string() + &text, (16, 1)),
        ("\u{feff}".to_string() + &text, (16, 1)),
        (text.replace('\n', "\r\n"), (16, 1)),
        (text.replace('\n', "\r"), (16, 1)),
        (text.replace('\n', ""), (16, 1)),
        // The first line at fault is given, whatever the later ones hold; and it is not `lines` where its count is right.
        (changed(&[("lines=1", "lines=2"), ("line=-", "line=*")]), (16, 6)),
        (changed(&[("lines=1", "lines=2"), (";2\n", ";2\nx\n")]), (16, 8)),
        (changed(&[("lines=1", "lines=2"), (";2\n", ";2\nx")]), (16, 8)),
        (changed(&[("lines=1", "lines=2"), (";2\n", ";2\n\n")]), (16, 8)),
        (changed(&[("lines=1", "lines=2"), ("line=-", "line=*"), (";2\n", ";2\nx\n")]), (16, 7)),
        (changed(&[("degree=5", "degree=4"), ("shape=3,2", "shape=2,3")]), (16, 2)),
        (changed(&[("degree=5", "degree=x"), ("shape=3,2", "shape=2,3")]), (16, 1)),
        (changed(&[("degree=5", "degree=18446744073709551615"), ("shape=3,2", "shape=2,3")]), (16, 2)),
        (changed(&[("degree=5", "degree=18446744073709551616"), ("shape=3,2", "shape=2,3")]), (16, 1)),
        (changed(&[("degree=5", "degree=17"), ("shape=3,2", "shape=17")]), (16, 2)),
        (changed(&[("degree=5", "degree=0"), ("shape=3,2", "shape="), ("class=3,2", "class=")]), NOT_SOUND),
        (changed(&[("steps=1", "steps=204"), ("line=-", "line=*")]), (16, 7)),
        // 10 comes before 7.
        (changed(&[("lines=1", "lines=9"), (";2\n", &(";2\n".to_string() + &"line=+;;\n".repeat(8)))]), FULL),
    ]);
    all
}

pub fn run(_: &Characters, group: &mut Group) {
    let mut tally = Tally::default();
    let mut given = |text: &str, refusal: Refusal| {
        let page = [0xDEAD_BEEF; 8];
        let (refused, line, _) = calls::load(text.as_bytes(), &page).answer.answer;
        group.same((refused, line), refusal, || format!("load of {text:?}"));
        compare_load(group, &mut tally, text.as_bytes(), &page);
    };
    for &(at, line, refusal) in CHANGES {
        let mut lines = LINES;
        lines[at - 1] = line;
        given(&(lines.join("\n") + "\n"), if refusal == BAD { (16, at as u64) } else { refusal });
    }
    for (text, refusal) in whole() {
        given(&text, refusal);
    }
    group.note(tally.said());
}
