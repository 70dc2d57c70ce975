//! Well-formed bodies at random, for several tests.

/// Numbers that look random and are the same in each run.
pub struct Random(pub u64);

impl Random {
    pub fn below(&mut self, most: usize) -> usize {
        self.0 = self
            .0
            .wrapping_mul(6_364_136_223_846_793_005)
            .wrapping_add(1);
        (self.0 >> 33) as usize % most
    }

    pub fn pick<'a>(&mut self, from: &[&'a str]) -> &'a str {
        from[self.below(from.len())]
    }
}

pub const NAMES: [&str; 6] = ["a", "b", "c", "key", "value", "entry"];

/// A body: an element, with or without something around it.
pub fn body(random: &mut Random) -> String {
    let front = random.pick(&["", "", "<?xml version='1.0'?>\n", "<!-- c -->", "\u{FEFF}"]);
    let behind = random.pick(&["", "", "\n", "<?p i?> "]);
    let root = element(random, 3);
    format!("{front}{root}{behind}")
}

/// An element of at most so many levels.
fn element(random: &mut Random, levels: usize) -> String {
    let prefix = random.pick(&["", "", "p:"]);
    let name = format!("{prefix}{}", random.pick(&NAMES));
    let mut tag = format!("<{name}");
    for attribute in ["a", "b", "p:b", "id"] {
        if random.below(4) == 0 {
            let value = random.pick(&["", "1", "&lt;µ", "x y"]);
            tag += &format!(" {attribute}='{value}'");
        }
    }
    if random.below(5) == 0 {
        return tag + random.pick(&["/>", " />"]);
    }
    tag += ">";
    for _ in 0..random.below(5) {
        let text = random.pick(&[
            "t",
            "&amp;",
            " ",
            "<!---->",
            "<![CDATA[<]]>",
            "<?p?>",
            "µ",
            "",
        ]);
        tag += text;
        if levels > 0 {
            tag += &element(random, levels - 1);
        }
    }
    tag + &format!("</{name}>")
}
