//! How often each operation was compared, with whom and over what: the sizes that the
//! comparison says it has are counted, and held to those that are asked of it.

use crate::readings::Compared;
use oracle::Kind;

#[derive(Clone, Copy, Debug, PartialEq, Eq)]
pub enum Operation {
    Struct,
    List,
    Map,
    Strings,
    Boolean,
    Integer,
    String,
    Find,
    WholeText,
    /// The scalars of a text, as an entry has it.
    OfText,
}

const OPERATIONS: [Operation; 10] = [
    Operation::Struct,
    Operation::List,
    Operation::Map,
    Operation::Strings,
    Operation::Boolean,
    Operation::Integer,
    Operation::String,
    Operation::Find,
    Operation::WholeText,
    Operation::OfText,
];

/// The scalars of a body, in the order in which they are asked for.
pub const SCALARS: [Operation; 3] = [Operation::Boolean, Operation::Integer, Operation::String];

impl From<Kind> for Operation {
    fn from(kind: Kind) -> Self {
        match kind {
            Kind::Struct => Operation::Struct,
            Kind::List => Operation::List,
            Kind::Map => Operation::Map,
            Kind::Strings => Operation::Strings,
        }
    }
}

impl Operation {
    fn has_sheet(self) -> bool {
        Kind::ALL.map(Operation::from).contains(&self)
    }

    /// Whether it tells a place, beside its number or in an entry.
    fn has_place(self) -> bool {
        self.has_flags() && self != Operation::List
    }

    /// Whether its answer depends on its being strict.
    fn has_flags(self) -> bool {
        self.has_sheet() || SCALARS.contains(&self)
    }
}

/// What a question is about.
#[derive(Clone, Copy, Debug, PartialEq, Eq)]
pub enum Source {
    Random,
    Damaged,
    Cut,
    Snippets,
    /// With many references, good, lax and bad.
    Referring,
    LessRoom,
    Lent,
    Text,
}

const SOURCES: [(Source, &str); 8] = [
    (Source::Random, "random"),
    (Source::Damaged, "damaged"),
    (Source::Cut, "cut at every byte"),
    (Source::Snippets, "rows of snippets"),
    (Source::Referring, "with references"),
    (Source::LessRoom, "less room"),
    (Source::Lent, "lent tables"),
    (Source::Text, "texts"),
];

/// The four kinds of bodies that every operation is asked about.
const BODIES: [Source; 4] = [
    Source::Random,
    Source::Damaged,
    Source::Cut,
    Source::Snippets,
];

type BySource = [u64; SOURCES.len()];

/// The counts of one operation.
#[derive(Clone, Copy, Default)]
pub struct Count {
    /// Beside the Rust and the model.
    rust: BySource,
    /// Beside the model alone.
    model: BySource,
    /// Of those beside the Rust: how many were strict, had a sheet with names of the
    /// body, and finished, and how many entries they gave.
    strict: u64,
    derived: u64,
    finished: u64,
    rust_entries: u64,
    /// Of all.
    entries: u64,
    numbers: [u64; 14],
    longer_roots: u64,
    /// Of those beside the Rust: how many had two groups or more. In less room, beside
    /// the model: how often a group had none, with one before it written; and how often
    /// one after it would have fitted.
    group_sets: u64,
    groups_kept: u64,
    groups_barred: u64,
    /// Of all, lenient and strict: answers of 7, and entries of kind 4 whose number is 7.
    sevens: [u64; 2],
    bad_references: [u64; 2],
}

impl Count {
    fn add(&mut self, source: Source, compared: Compared, derived: bool) {
        if compared.rust {
            self.rust[source as usize] += 1;
            self.strict += u64::from(compared.strict);
            self.derived += u64::from(derived);
            self.finished += u64::from(compared.number == 0);
            self.rust_entries += compared.entries as u64;
            self.group_sets += u64::from(compared.groups > 1);
        } else {
            self.model[source as usize] += 1;
        }
        self.entries += compared.entries as u64;
        self.numbers[compared.number as usize] += 1;
        self.longer_roots += u64::from(compared.longer_root);
        self.groups_kept += compared.groups_kept as u64;
        self.groups_barred += compared.groups_barred as u64;
        let strict = usize::from(compared.strict);
        self.sevens[strict] += u64::from(compared.number == 7);
        self.bad_references[strict] += compared.bad_references as u64;
    }

    fn merge(&mut self, other: &Count) {
        add_each(&mut self.rust, &other.rust);
        add_each(&mut self.model, &other.model);
        add_each(&mut self.numbers, &other.numbers);
        add_each(&mut self.sevens, &other.sevens);
        add_each(&mut self.bad_references, &other.bad_references);
        self.strict += other.strict;
        self.derived += other.derived;
        self.finished += other.finished;
        self.rust_entries += other.rust_entries;
        self.entries += other.entries;
        self.longer_roots += other.longer_roots;
        self.group_sets += other.group_sets;
        self.groups_kept += other.groups_kept;
        self.groups_barred += other.groups_barred;
    }

    pub fn beside_rust(&self) -> u64 {
        self.rust.iter().sum()
    }

    fn lenient(&self) -> u64 {
        self.beside_rust() - self.strict
    }

    fn other_sheets(&self) -> u64 {
        self.beside_rust() - self.derived
    }

    fn shown(&self, operation: Operation) -> String {
        let mut parts = vec![format!("{} beside the Rust", self.beside_rust())];
        parts.extend(listed(&self.rust));
        parts.push(format!("finished {}", self.finished));
        if operation.has_flags() {
            parts.push(format!(
                "strict {}, lenient {}",
                self.strict,
                self.lenient()
            ));
        }
        if operation.has_sheet() {
            let (derived, others) = (self.derived, self.other_sheets());
            parts.push(format!(
                "sheets of the body's names {derived}, others {others}"
            ));
            parts.push(format!("entries {}", self.rust_entries));
        }
        if let Some(model) = listed(&self.model) {
            parts.push(format!("beside the model alone: {model}"));
        }
        let [lenient, strict] = self.places(operation);
        if lenient + strict > 0 {
            parts.push(format!("places: strict {strict}, lenient {lenient}"));
        }
        if operation == Operation::Struct {
            parts.push(format!(
                "sets of groups {}, kept before one without room {}, barred by one {}",
                self.group_sets, self.groups_kept, self.groups_barred
            ));
        }
        parts.join("; ")
    }

    /// How many places were compared, lenient and strict: those of entries where the
    /// operation never answers 7.
    fn places(&self, operation: Operation) -> [u64; 2] {
        match operation {
            Operation::Struct => self.bad_references,
            _ => self.sevens,
        }
    }
}

fn add_each<const N: usize>(sums: &mut [u64; N], counts: &[u64; N]) {
    for (sum, count) in sums.iter_mut().zip(counts) {
        *sum += count;
    }
}

/// The sources that there are.
fn listed(by: &BySource) -> Option<String> {
    let parts: Vec<String> = SOURCES
        .iter()
        .zip(by)
        .filter(|(_, count)| **count > 0)
        .map(|((_, name), count)| format!("{name} {count}"))
        .collect();
    (!parts.is_empty()).then(|| parts.join(", "))
}

#[derive(Clone, Default)]
pub struct Counts([Count; OPERATIONS.len()]);

impl Counts {
    /// `derived` says that the sheet has names of the body.
    pub fn add(&mut self, operation: Operation, source: Source, compared: Compared, derived: bool) {
        self.0[operation as usize].add(source, compared, derived);
    }

    pub fn merge(&mut self, other: &Counts) {
        for (sum, count) in self.0.iter_mut().zip(&other.0) {
            sum.merge(count);
        }
    }

    pub fn of(&self, operation: Operation) -> &Count {
        &self.0[operation as usize]
    }

    /// The remark behind a group.
    pub fn remark(&self) -> String {
        let mut sum = Count::default();
        self.0.iter().for_each(|count| sum.merge(count));
        let refused: Vec<String> = (1..sum.numbers.len())
            .filter(|number| sum.numbers[*number] > 0)
            .map(|number| format!("{number}: {}", sum.numbers[number]))
            .collect();
        format!(
            "{} beside the Rust, {} finished, {} entries, refused {}; by design {} unwrapped pieces",
            sum.beside_rust(),
            sum.numbers[0],
            sum.entries,
            refused.join(", "),
            sum.longer_roots
        )
    }

    /// A line for each operation.
    pub fn show(&self) {
        for operation in OPERATIONS {
            let shown = self.of(operation).shown(operation);
            println!("compared: {operation:?}: {shown}");
        }
    }
}

/// The least that a run is to reach.
pub struct Floor {
    /// Beside the Rust, for each reading by a sheet.
    pub bodies: u64,
    /// Beside the Rust, for each scalar and find; and for the scalars of texts.
    /// Beside the model, for the whole text.
    pub scalars: u64,
    /// In less room, for each reading by a sheet.
    pub rooms: u64,
    /// Lent tables, for each operation. (The readings by a sheet share them.)
    pub lent: u64,
    /// Places, strict and lenient each, for each operation that tells one.
    pub places: u64,
    /// Of structures: sets of groups beside the Rust; and each way in which a group may
    /// have no room.
    pub groups: u64,
}

/// A count and the least that it may be.
struct Claim {
    what: String,
    count: u64,
    least: u64,
}

fn claim(what: impl Into<String>, count: u64, least: u64) -> Claim {
    let what = what.into();
    Claim { what, count, least }
}

/// What has to be there, but has no size of its own, is at least this part.
const SHARE: u64 = 25;

impl Floor {
    /// What was not reached, in words.
    pub fn missed(&self, counts: &Counts) -> Vec<String> {
        let mut missed = Vec::new();
        for operation in OPERATIONS {
            let claims = self.claims(operation, counts.of(operation));
            let short = claims.into_iter().filter(|claim| claim.count < claim.least);
            missed.extend(short.map(|Claim { what, count, least }| {
                format!("{operation:?}: {what}: {count} and not {least}")
            }));
        }
        missed
    }

    fn claims(&self, operation: Operation, count: &Count) -> Vec<Claim> {
        let mut claims = self.of_operation(operation, count);
        if operation.has_place() {
            let [lenient, strict] = count.places(operation);
            claims.push(claim("lenient places", lenient, self.places));
            claims.push(claim("strict places", strict, self.places));
        }
        if operation == Operation::Struct {
            claims.push(claim("sets of groups", count.group_sets, self.groups));
            claims.push(claim("groups kept", count.groups_kept, self.groups));
            claims.push(claim("groups barred", count.groups_barred, self.groups));
        }
        claims
    }

    fn of_operation(&self, operation: Operation, count: &Count) -> Vec<Claim> {
        let lent = count.model[Source::Lent as usize];
        match operation {
            Operation::OfText => vec![claim("beside the Rust", count.beside_rust(), self.scalars)],
            Operation::WholeText => vec![
                claim(
                    "bodies",
                    count.model.iter().sum::<u64>() - lent,
                    self.scalars,
                ),
                claim("lent tables", lent, self.lent),
            ],
            _ if operation.has_sheet() => [
                beside_rust(operation, count, self.bodies),
                self.of_sheets(count, lent),
            ]
            .into_iter()
            .flatten()
            .collect(),
            _ => {
                let mut claims = beside_rust(operation, count, self.scalars);
                claims.push(claim("lent tables", lent, self.lent));
                claims
            }
        }
    }

    fn of_sheets(&self, count: &Count, lent: u64) -> Vec<Claim> {
        let share = self.bodies / SHARE;
        vec![
            claim("sheets of the body's names", count.derived, share),
            claim("other sheets", count.other_sheets(), share),
            claim("entries", count.rust_entries, self.bodies / 5),
            claim(
                "less room",
                count.model[Source::LessRoom as usize],
                self.rooms,
            ),
            claim("lent tables", lent, self.lent / 5),
        ]
    }
}

/// The size, and that there are all kinds of bodies, strict and lenient readings, and
/// readings that finish.
fn beside_rust(operation: Operation, count: &Count, least: u64) -> Vec<Claim> {
    let share = least / SHARE;
    let mut claims = vec![
        claim("beside the Rust", count.beside_rust(), least),
        claim("finished", count.finished, share),
    ];
    for source in BODIES {
        let (_, name) = SOURCES[source as usize];
        claims.push(claim(name, count.rust[source as usize], share));
    }
    if operation.has_flags() {
        claims.push(claim("strict", count.strict, share));
        claims.push(claim("lenient", count.lenient(), share));
    }
    claims
}
