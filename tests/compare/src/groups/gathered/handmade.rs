//! Gathered texts by hand: each rule of the form by texts that keep it or break it, with the answer that they must get.

use super::compare_load;
use crate::calls::{self, gathered as joined_calls};
use crate::groups::Tally;
use crate::model::characters::Characters;
use crate::model::sessions::Slip;
use crate::report::Group;

/// The refusal number of a load, and the text's line.
type Refusal = (u32, u64);

const TAKEN: Refusal = (0, 0);
const NOT_SOUND: Refusal = (7, 0);
const FULL: Refusal = (10, 0);

/// A text of nine lines.
const LINES: [&str; 9] = [
    "mode=gathered",
    "degree=5",
    "shape=3,2",
    "class=2,2,1",
    "steps=1",
    "settled=0",
    "lines=2",
    "line=-3;2,1;1,1,1",
    "line=2;1,1;2",
];

/// What stands in the place of a line, by its number, and what is then given: `BAD` is 16 at this line.
const BAD: Refusal = (16, 0);
const CHANGES: &[(usize, &str, Refusal)] = &[
    (1, "mode=gathered", TAKEN),
    (1, "mode=plain", BAD),
    (1, "mode=1", BAD),
    (1, "mode=gathered ", BAD),
    (1, "mode=gathered\r", BAD),
    (1, " mode=gathered", BAD),
    (1, "mode=Gathered", BAD),
    (1, "mode=gather", BAD),
    (1, "mode=gatheredd", BAD),
    (1, "mode=", BAD),
    (1, "mode", BAD),
    (1, "", BAD),
    (1, "degree=5", BAD),
    (2, "degree=4", BAD),
    (2, "degree=05", BAD),
    (2, "degree=18446744073709551621", BAD),
    (2, "mode=gathered", BAD),
    (2, "", BAD),
    (3, "shape=5", TAKEN),
    (3, "shape=2,3", BAD),
    (3, "shape=17", BAD),
    (3, "shape=259,2", BAD),
    (3, "shape=4,2", (16, 2)),
    (4, "class=1,1,1,1,1", TAKEN),
    (4, "class=2,3", BAD),
    (4, "class=3,2,", BAD),
    (4, "class=3,1", NOT_SOUND),
    (5, "steps=193", TAKEN),
    (5, "steps=194", NOT_SOUND),
    (5, "steps=9223372036854775808", BAD),
    (5, "steps=18446744073709551617", BAD),
    (5, "steps=-1", BAD),
    (6, "settled=98", TAKEN),
    (6, "settled=-98", TAKEN),
    (6, "settled=99", NOT_SOUND),
    (6, "settled=-99", NOT_SOUND),
    (6, "settled=-9223372036854775808", NOT_SOUND),
    (6, "settled=9223372036854775808", BAD),
    (6, "settled=-9223372036854775809", BAD),
    (6, "settled=-0", BAD),
    (6, "settled=01", BAD),
    (6, "settled=+1", BAD),
    (7, "lines=1", BAD),
    (7, "lines=3", BAD),
    (7, "lines=02", BAD),
    (7, "lines=18446744073709551618", BAD),
    (7, "lines=", BAD),
    (8, "line=19;2,1;1,1,1", TAKEN),
    (8, "line=-19;2,1;1,1,1", TAKEN),
    (8, "line=20;2,1;1,1,1", NOT_SOUND),
    (8, "line=-20;2,1;1,1,1", NOT_SOUND),
    (8, "line=0;2,1;1,1,1", NOT_SOUND),
    (8, "line=1;2,1;1,1,1", TAKEN),
    (8, "line=-1;2,1;1,1,1", TAKEN),
    (8, "line=9223372036854775807;2,1;1,1,1", NOT_SOUND),
    (8, "line=-9223372036854775808;2,1;1,1,1", NOT_SOUND),
    (8, "line=-9223372036854775807;2,1;1,1,1", NOT_SOUND),
    (8, "line=9223372036854775808;2,1;1,1,1", BAD),
    (8, "line=-9223372036854775809;2,1;1,1,1", BAD),
    (8, "line=18446744073709551617;2,1;1,1,1", BAD),
    (8, "line=-18446744073709551617;2,1;1,1,1", BAD),
    (8, "line=340282366920938463463374607431768211457;2,1;1,1,1", BAD),
    (8, "line=+1;2,1;1,1,1", BAD),
    (8, "line=-0;2,1;1,1,1", BAD),
    (8, "line=+0;2,1;1,1,1", BAD),
    (8, "line=00;2,1;1,1,1", BAD),
    (8, "line=01;2,1;1,1,1", BAD),
    (8, "line=-01;2,1;1,1,1", BAD),
    (8, "line=--1;2,1;1,1,1", BAD),
    (8, "line=- 1;2,1;1,1,1", BAD),
    (8, "line= 1;2,1;1,1,1", BAD),
    (8, "line=1 ;2,1;1,1,1", BAD),
    (8, "line=1.;2,1;1,1,1", BAD),
    (8, "line=0x1;2,1;1,1,1", BAD),
    (8, "line=1,;2,1;1,1,1", BAD),
    (8, "line=+;2,1;1,1,1", BAD),
    (8, "line=-;2,1;1,1,1", BAD),
    (8, "line=;2,1;1,1,1", BAD),
    (8, "line=2,1;1,1,1", BAD),
    (8, "line=1;2,1", BAD),
    (8, "line=1;2,1;1,1,1;", BAD),
    (8, "line=1;2,1;1,1,1;1", BAD),
    (8, "line=1;1,2;1,1,1", BAD),
    (8, "line=1;17;16", BAD),
    (8, "line=1;;", NOT_SOUND),
    (8, "line=0;;", NOT_SOUND),
    (8, "line=1;2,1;2,2", NOT_SOUND),
    (8, "line=1;6;6", NOT_SOUND),
    (8, "line=1;1,1;2", NOT_SOUND),
    (8, "line=-2;1,1;2", NOT_SOUND),
    (8, "line=2;1,1;1,1", TAKEN),
    (8, "line=2;2;2", TAKEN),
    (9, "line=-3;2,1;1,1,1", NOT_SOUND),
    (9, "line=3;2,1;1,1,1", NOT_SOUND),
    (9, "line=3;2,1;2,1", TAKEN),
    (9, "lines=3;2,1;2,1", BAD),
    (9, "", BAD),
];

/// Whole texts, and what is given.
fn whole() -> Vec<(String, Refusal)> {
    let text = LINES.join("\n") + "\n";
    let first = |count: usize| LINES[..count].iter().map(|line| format!("{line}\n")).collect::<String>();
    let cut = (0..9).map(|count| (first(count), (16, if count >= 7 { 7 } else { count as u64 + 1 })));
    let open = (1..8).map(|count| (first(count).trim_end().to_string(), (16, count as u64)));
    let changed = |pairs: &[(&str, &str)]| pairs.iter().fold(text.clone(), |text, (old, new)| text.replace(old, new));
    let many = (1..=9).map(|row| format!("line=0;{row};{row}\n")).collect::<String>();
    let mut all: Vec<(String, Refusal)> = cut.chain(open).collect();
    all.extend([
        (text.clone(), TAKEN),
        (text.trim_end().to_string(), (16, 9)),
        (text.clone() + "\n", (16, 7)),
        (text.clone() + "x", (16, 7)),
        ("\n".to_string() + &text, (16, 1)),
        (text.replace('\n', "\r\n"), (16, 1)),
        (text.replacen("mode=gathered\n", "", 1), (16, 1)),
        (text.clone().replacen("mode=gathered\n", "mode=gathered\nmode=gathered\n", 1), (16, 2)),
        // The mode comes first, and only there.
        (text.replacen("mode=gathered\n", "", 1) + "mode=gathered\n", (16, 1)),
        (changed(&[("mode=gathered\ndegree=5\n", "degree=5\nmode=gathered\n")]), (16, 1)),
        // The first line at fault is given, whatever the later ones hold.
        (changed(&[("lines=2", "lines=3"), ("line=-3", "line=+3")]), (16, 7)),
        (changed(&[("line=-3", "line=+3"), ("line=2;", "line=x;")]), (16, 8)),
        (changed(&[("degree=5", "degree=4"), ("shape=3,2", "shape=2,3")]), (16, 3)),
        (changed(&[("degree=5", "degree=4"), ("steps=1", "steps=x")]), (16, 2)),
        (changed(&[("steps=1", "steps=204"), ("line=2;", "line=-0;")]), (16, 9)),
        // 10 comes before 7, and 16 before both.
        (changed(&[("lines=2", "lines=11")]) + &many, FULL),
        (changed(&[("lines=2", "lines=11")]) + &many.replace("line=0;9;9", "line=-0;9;9"), (16, 18)),
        // A plain text.
        ("degree=5\nshape=3,2\nclass=3,2\nsteps=1\nsettled=0\nlines=1\nline=-;1,1;2\n".to_string(), (16, 1)),
        ("mode=gathered\ndegree=0\nshape=\nclass=\nsteps=0\nsettled=1\nlines=0\n".to_string(), TAKEN),
        ("mode=gathered\ndegree=0\nshape=\nclass=\nsteps=0\nsettled=2\nlines=0\n".to_string(), NOT_SOUND),
    ]);
    all
}

pub fn run(_: &Characters, group: &mut Group) {
    let mut tally = Tally::default();
    let mut given = |text: &str, refusal: Refusal| {
        let (page, column) = ([0xDEAD_BEEF; 8], [-5; 8]);
        let (refused, line, _) = joined_calls::load(text.as_bytes(), &page, &column).answer.answer.answer;
        group.same((refused, line), refusal, || format!("gathered load of {text:?}"));
        tally.count(refused);
        compare_load(group, text.as_bytes(), &page, &column);
        if text.starts_with("mode=") {
            let plain = calls::load(text.as_bytes(), &page).answer.answer;
            group.same(plain, (16, 1, Slip::default()), || format!("plain load of {text:?}"));
        }
    };
    for &(at, line, refusal) in CHANGES {
        let mut lines = LINES;
        lines[at - 1] = line;
        given(&(lines.join("\n") + "\n"), if refusal == BAD { (16, at as u64) } else { refusal });
    }
    for (text, refusal) in whole() {
        given(&text, refusal);
    }
    group.same(tally.lacking(&[0, 7, 10, 16], 1), vec![], || "refusals not met".to_string());
    group.note(tally.said());
}
