//! The cost of reading a reply, and of the text of a name, as ratios to one pass over the same octets; and how
//! both grow with the reply's length.
use crate::image::Random;
use crate::measure::{medians_of, pass, Call};
use crate::pings::{EX_VERSION, P1_REPLY, P1_VERSION};
use crate::replies::{longest, with_text, worst_ex, Name, LABELS_MOST, LETTER, LONG, PAIR};
use std::hint::black_box;
use vinegarjar::{name_text, read_reply, Form};

/// A reply, the form in which it is read, and the number that this must give.
struct Case {
    name: &'static str,
    reply: &'static [u8],
    form: Form,
    version: u32,
}

impl Case {
    fn new(name: &'static str, reply: Vec<u8>, form: Form, version: u32) -> Case {
        Case { name, reply: reply.leak(), form, version }
    }

    /// The number that reading it gives.
    fn number(&self) -> u8 {
        read_reply(self.reply, self.form, self.version).map_or_else(|refusal| refusal.number(), |_| 0)
    }

    fn read(&self) -> Call {
        let Case { reply, form, version, .. } = *self;
        Box::new(move || {
            black_box(&read_reply(black_box(reply), form, version));
        })
    }
}

fn random_octets(count: usize) -> Vec<u8> {
    let mut random = Random(1);
    (0..count).map(|_| random.below(256) as u8).collect()
}

fn cases() -> Vec<Case> {
    let (nt40, response, ex) = (longest(0), longest(2), longest(EX_VERSION));
    let long = |reply: &[u8], unit: &[u8]| with_text(reply, unit, LONG);
    let (long_nt40, pairs_nt40, long_response) = (long(&nt40, &LETTER), long(&nt40, &PAIR), long(&response, &LETTER));
    vec![
        Case::new("EX, P1", P1_REPLY.to_vec(), Form::Ex, P1_VERSION),
        Case::new("EX, the longest written", ex, Form::Ex, EX_VERSION),
        Case::new("RESPONSE, the longest written", response, Form::Response, 0),
        Case::new("NT40, the longest written", nt40, Form::Nt40, 0),
        Case::new("EX, names of the most steps", worst_ex(), Form::Ex, EX_VERSION),
        Case::new("RESPONSE, a text of 65,000 octets", long_response, Form::Response, 0),
        Case::new("NT40, a text of 65,000 octets", long_nt40, Form::Nt40, 0),
        Case::new("NT40, the same of surrogate pairs", pairs_nt40, Form::Nt40, 0),
        Case::new("EX, random octets", random_octets(1000), Form::Ex, EX_VERSION),
    ]
}

fn print_replies() {
    println!("passes: the time as a ratio to one pass over the same octets");
    println!("{:<36}{:>8}{:>8}{:>9}{:>11}{:>11}", "reply", "octets", "answer", "passes", "read ns", "pass ns");
    for case in cases() {
        let [read, over] = medians_of([case.read(), pass(case.reply)]);
        let (name, octets, number) = (case.name, case.reply.len(), case.number());
        println!("{name:<36}{octets:>8}{number:>8}{:>9.2}{read:>11.0}{over:>11.0}", read / over);
    }
}

fn print_lengths() {
    println!("\n{:<52}{:>9}{:>11}{:>11}", "a text of 65,000 octets to one of 32,500", "ratio", "long ns", "half ns");
    for (title, written, form) in [("NT40", longest(0), Form::Nt40), ("RESPONSE", longest(2), Form::Response)] {
        let [long, half] =
            [LONG, LONG / 2].map(|length| Case::new(title, with_text(&written, &LETTER, length), form, 0));
        assert!(half.number() == 0 && long.number() == 0, "{title}");
        let [long, half] = medians_of([long.read(), half.read()]);
        println!("{title:<52}{:>9.2}{long:>11.0}{half:>11.0}", long / half);
    }
}

fn print_names() {
    println!("\nin long: the time in a reply of 65,000 octets as a ratio to that in this one");
    let titles = ["octets", "in long", "passes"].map(|title| format!("{title:>9}")).concat();
    println!("{:<34}{titles}{:>11}{:>11}", "a name's text", "text ns", "pass ns");
    for (title, labels, octets) in
        [("of 16 pointers, 33 labels", 33, 100), ("of 16 pointers, 127 labels", LABELS_MOST, 287)]
    {
        let text = |length| -> Call {
            let name = Name::of_short_labels(labels, length);
            assert_eq!(name.text(), Some(vec!["a"; labels].join(".").into_bytes()));
            Box::new(move || {
                black_box(&name_text(black_box(&name.reply), name.start));
            })
        };
        let over = pass(Name::of_short_labels(labels, octets).reply.leak());
        let [short, long, over] = medians_of([text(octets), text(LONG), over]);
        println!("{title:<34}{octets:>9}{:>9.2}{:>9.2}{short:>11.0}{over:>11.0}", long / short, short / over);
    }
}

pub fn print() {
    print_replies();
    print_lengths();
    print_names();
}
