//! The count of one group of questions, and what of it is shown.

/// How many differing answers a group shows.
const SHOWN: u64 = 5;

/// One group. It passes when no answer differs.
pub struct Tally {
    pub name: String,
    /// What is asked about, in the plural.
    things: &'static str,
    pub asked: u64,
    differing: u64,
}

impl Tally {
    pub fn new(name: impl Into<String>, things: &'static str) -> Self {
        Tally {
            name: name.into(),
            things,
            asked: 0,
            differing: 0,
        }
    }

    /// Counts one answer. `shown` writes what was asked, where it is to be seen.
    pub fn count(&mut self, problem: Option<String>, shown: impl FnOnce() -> String) {
        self.asked += 1;
        if let Some(problem) = problem {
            if self.differing < SHOWN {
                println!("differs: {}: {problem}: {}", self.name, shown());
            }
            self.differing += 1;
        }
    }

    /// Says what was found, with a remark where there is one, and whether all were
    /// alike. A group that asked nothing has not passed.
    pub fn end(self, remark: &str) -> bool {
        let alike = self.differing == 0 && self.asked > 0;
        println!(
            "{}: {}: {} {}, {} differ{}{remark}",
            if alike { "alike" } else { "DIFFERENT" },
            self.name,
            self.asked,
            self.things,
            self.differing,
            if remark.is_empty() { "" } else { "; " }
        );
        alike
    }
}

/// Ends a program: the last line and the status, from the groups' results.
pub fn finish(groups: &[bool]) -> ! {
    let passed = groups.iter().filter(|alike| **alike).count();
    println!("{passed} passed, {} failed", groups.len() - passed);
    std::process::exit(i32::from(passed != groups.len()));
}
