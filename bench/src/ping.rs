//! What a ping costs by its parts: judging the table, reading the filter, choosing the answer, and writing the reply.
use crate::calls::read;
use crate::image::{Image, Laden};
use crate::measure::{medians_of, pass, Call};
use crate::pings::{worst_filter, CLIENT, EX_VERSION, P1_FILTER, P1_REPLY, WORST_LENGTH};
use std::hint::black_box;
use vinegarjar::{judge, Table};

/// A ping, and the length of the reply that it must get.
struct Case {
    name: &'static str,
    image: &'static [u8],
    filter: &'static [u8],
    length: usize,
}

impl Case {
    fn new(name: &'static str, image: Image, filter: Vec<u8>, length: usize) -> Case {
        Case { name, image: image.octets().to_vec().leak(), filter: filter.leak(), length }
    }

    fn worst(name: &'static str, laden: Laden) -> Case {
        Case::new(name, laden.image(), worst_filter(&laden, EX_VERSION), WORST_LENGTH)
    }

    /// The ping with so much room for its reply, without judging.
    fn answered(&self, room: usize) -> Call {
        let (table, filter) = (Table::new(self.image).expect("a good table"), self.filter);
        let mut reply = vec![0; room];
        Box::new(move || {
            black_box(&table.answer(CLIENT.into(), black_box(filter), black_box(&mut reply)));
        })
    }

    /// One octet too little room is refused, and else the reply has its length.
    fn hold(&self) {
        let table = Table::new(self.image).expect("a good table");
        let length = |room| table.answer(CLIENT.into(), self.filter, &mut vec![0; room]).map(|answer| answer.length);
        assert!(length(self.length - 1).is_err(), "{}", self.name);
        assert_eq!(length(self.length), Ok(self.length), "{}", self.name);
    }

    /// The times of one pass over the image, the judgement, reading the filter, all but writing, and the whole without judging.
    fn times(&self) -> [f64; 5] {
        let (image, filter) = (self.image, self.filter);
        medians_of([
            pass(image),
            Box::new(move || {
                black_box(&judge(black_box(image)));
            }),
            Box::new(move || {
                black_box(read(black_box(filter)));
            }),
            self.answered(self.length - 1),
            self.answered(self.length),
        ])
    }
}

fn cases() -> Vec<Case> {
    vec![
        Case::new("5 blocks, P1", Image::five_blocks(), P1_FILTER.to_vec(), P1_REPLY.len()),
        Case::worst("21 blocks, the worst ping", Laden::LEAST),
        Case::worst("128 blocks, sites, the worst ping", Laden::OF_SITES),
        Case::worst("128 blocks, subnets, the worst ping", Laden::OF_SUBNETS),
        Case::worst("128 blocks, accounts, the worst ping", Laden::OF_ACCOUNTS),
    ]
}

pub fn print() {
    println!("times in ns; ping: without judging, as read + choose + write; passes: the ping as a ratio to one pass over the image");
    let titles = ["pass", "judge", "ping", "read", "choose", "write"];
    println!("{:<38}{}{:>8}", "ping", titles.map(|title| format!("{title:>9}")).concat(), "passes");
    for case in cases() {
        case.hold();
        let [over, judged, read, unwritten, whole] = case.times();
        let row = [over, judged, whole, read, unwritten - read, whole - unwritten];
        println!("{:<38}{}{:>8.1}", case.name, row.map(|time| format!("{time:>9.0}")).concat(), whole / over);
    }
}
