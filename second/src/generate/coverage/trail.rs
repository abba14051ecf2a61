//! The way along a name by the octets alone, with every step kept. Like the walk it knows no limit.

#[derive(Clone, Copy, Debug, PartialEq, Eq)]
pub enum Step {
    Label { at: usize, length: usize },
    Pointer { at: usize, aim: usize, run_start: usize },
}

#[derive(Clone, Copy, Debug, PartialEq, Eq)]
pub enum End {
    Zero,
    /// Octets are missing, those of a label where its length is given.
    Cut {
        cause: &'static str,
        label: Option<usize>,
    },
    Broken {
        cause: &'static str,
    },
}

/// Why a name may be broken or cut, before a pointer or after one.
pub const CAUSES: [&str; 11] = [
    "top bits 01",
    "top bits 10",
    "an aim at itself",
    "an aim at itself, after labels",
    "an aim at its run's start",
    "an aim into its run",
    "an aim above itself",
    "an aim past the end",
    "a label cut",
    "half a pointer",
    "no octet",
];

pub struct Trail {
    pub steps: Vec<Step>,
    pub end: End,
    /// The offset of the octet that ends it.
    end_at: usize,
}

pub fn trail(octets: &[u8], start: usize) -> Trail {
    let mut steps = Vec::new();
    let (mut at, mut run_start) = (start, start);
    let end = loop {
        match octets.get(at..).unwrap_or_default() {
            [] => break End::Cut { cause: "no octet", label: None },
            [0, ..] => break End::Zero,
            [0x40..=0x7F, ..] => break End::Broken { cause: "top bits 01" },
            [0x80..=0xBF, ..] => break End::Broken { cause: "top bits 10" },
            [0xC0..=0xFF] => break End::Cut { cause: "half a pointer", label: None },
            [high @ 0xC0..=0xFF, low, ..] => {
                let aim = (usize::from(*high) - 0xC0) * 256 + usize::from(*low);
                if let Some(cause) = fault_of_aim(aim, at, run_start, octets.len()) {
                    break End::Broken { cause };
                }
                steps.push(Step::Pointer { at, aim, run_start });
                (at, run_start) = (aim, aim);
            }
            [length, rest @ ..] => {
                let length = usize::from(*length);
                if rest.len() < length {
                    break End::Cut { cause: "a label cut", label: Some(length) };
                }
                steps.push(Step::Label { at, length });
                at += 1 + length;
            }
        }
    };
    Trail { steps, end, end_at: at }
}

fn fault_of_aim(aim: usize, at: usize, run_start: usize, length: usize) -> Option<&'static str> {
    match aim {
        _ if aim < run_start => None,
        _ if aim >= length => Some("an aim past the end"),
        _ if aim > at => Some("an aim above itself"),
        _ if aim == at && at == run_start => Some("an aim at itself"),
        _ if aim == at => Some("an aim at itself, after labels"),
        _ if aim == run_start => Some("an aim at its run's start"),
        _ => Some("an aim into its run"),
    }
}

/// All that a name may have.
pub fn features() -> [&'static str; 15] {
    trail(&[0], 0).features(&[0]).map(|(feature, _)| feature)
}

impl Trail {
    /// The offset after the name's own field, which ends with the first pointer or with the zero octet.
    pub fn field_end(&self) -> usize {
        self.pointers().next().map_or(self.end_at + 1, |(at, _, _)| at + 2)
    }

    /// Each pointer's offset, aim, and start of its run.
    pub fn pointers(&self) -> impl Iterator<Item = (usize, usize, usize)> + '_ {
        self.steps.iter().filter_map(|step| match *step {
            Step::Pointer { at, aim, run_start } => Some((at, aim, run_start)),
            Step::Label { .. } => None,
        })
    }

    /// Each label's offset and length.
    pub fn labels(&self) -> impl Iterator<Item = (usize, usize)> + '_ {
        self.steps.iter().filter_map(|step| match *step {
            Step::Label { at, length } => Some((at, length)),
            Step::Pointer { .. } => None,
        })
    }

    /// The octets of the name written out, its final zero counted.
    pub fn written_out(&self) -> usize {
        1 + self.labels().map(|(_, length)| 1 + length).sum::<usize>()
    }

    /// What kind of octet of the name's own field stands at an offset.
    pub fn octet_at(&self, offset: usize) -> &'static str {
        for step in &self.steps {
            match *step {
                Step::Label { at, .. } if at == offset => return "a label",
                Step::Label { at, length } if (at..=at + length).contains(&offset) => return "the middle of a label",
                Step::Label { .. } => {}
                Step::Pointer { at, .. } if at == offset => return "a pointer",
                Step::Pointer { .. } => return "a pointer's second octet",
            }
        }
        "a final zero"
    }

    /// What a name that is read or walked may have, and whether this one has it.
    fn features(&self, octets: &[u8]) -> [(&'static str, bool); 15] {
        let labels: Vec<&[u8]> = self.labels().map(|(at, length)| &octets[at + 1..=at + length]).collect();
        let has = |octet: u8| labels.iter().any(|label| label.contains(&octet));
        let some_aim = |is: fn(usize, usize) -> bool| self.pointers().any(|(_, aim, run_start)| is(aim, run_start));
        let are_labels: Vec<bool> = self.steps.iter().map(|step| matches!(step, Step::Label { .. })).collect();
        let to_last_pointer = are_labels.iter().rposition(|is_label| !is_label).map_or(0, |last| last + 1);
        let between = are_labels[..to_last_pointer].windows(2).any(|pair| pair == [false, true]);
        [
            ("no labels", are_labels.is_empty()),
            ("no labels, by a pointer", labels.is_empty() && to_last_pointer != 0),
            ("127 labels", labels.len() == 127),
            ("a label of 63 octets", labels.iter().any(|label| label.len() == 63)),
            ("a label with a dot", has(b'.')),
            ("a label with a zero octet", has(0)),
            ("a label with an octet C0h", has(0xC0)),
            ("a pointer first", are_labels.first() == Some(&false)),
            ("a pointer after labels", are_labels.first() == Some(&true) && to_last_pointer != 0),
            ("a pointer that leads to another", are_labels.windows(2).any(|pair| pair == [false, false])),
            ("labels between two pointers", between),
            ("an aim just below its run", some_aim(|aim, run_start| aim + 1 == run_start)),
            ("an aim at offset 0", some_aim(|aim, _| aim == 0)),
            ("an aim beyond offset 255", some_aim(|aim, _| aim > 255)),
            ("a label over the pointer that led to it", self.has_label_over_pointer()),
        ]
    }

    pub fn features_met(&self, octets: &[u8]) -> Vec<&'static str> {
        self.features(octets).into_iter().filter(|(_, met)| *met).map(|(feature, _)| feature).collect()
    }

    /// Whether some label takes in the pointer that its run was reached by.
    fn has_label_over_pointer(&self) -> bool {
        let mut led_by = None;
        self.steps.iter().any(|step| match *step {
            Step::Label { at, length } => led_by.is_some_and(|pointer| (at..=at + length).contains(&pointer)),
            Step::Pointer { at, .. } => {
                led_by = Some(at);
                false
            }
        })
    }
}
