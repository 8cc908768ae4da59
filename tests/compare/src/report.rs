//! The line that a group of comparisons prints.

use std::fmt::Debug;

/// How many differences of a group are shown in full.
const SHOWN: u64 = 5;

pub struct Group {
    name: &'static str,
    compared: u64,
    differences: u64,
    notes: Vec<String>,
}

impl Group {
    /// A group of this name, with all its comparisons made.
    pub fn compared(name: &'static str, compare: impl FnOnce(&mut Group)) -> Group {
        let mut group = Group { name, compared: 0, differences: 0, notes: vec![] };
        compare(&mut group);
        group
    }

    /// Compares what the library answers with what the model does.
    pub fn same<T: PartialEq + Debug>(&mut self, answer: T, model: T, what: impl FnOnce() -> String) {
        self.compared += 1;
        if answer == model {
            return;
        }
        self.differences += 1;
        if self.differences <= SHOWN {
            eprintln!("{}: {}: the library says {answer:?}, the model {model:?}", self.name, what());
        }
    }

    pub fn note(&mut self, note: String) {
        self.notes.push(note);
    }

    /// Prints the group's line, and gives whether something was compared and nothing differed.
    pub fn close(self) -> bool {
        let agreed = self.compared > 0 && self.differences == 0;
        let verdict = if agreed { "ok" } else { "FAILED" };
        let notes: String = self.notes.iter().map(|note| format!(", {note}")).collect();
        println!("{verdict} compare {}: {} compared, {} differ{notes}", self.name, self.compared, self.differences);
        agreed
    }
}

/// Prints the line of a group that did not come to its end: what the library answered was none of its answers.
pub fn stopped(name: &str) -> bool {
    println!("FAILED compare {name}: stopped before its end");
    false
}
