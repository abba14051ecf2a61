//! The cost of judging a table image, as a ratio to one pass over its octets.
use crate::image::{Image, Random, USERS};
use crate::measure::{medians_of, pass, Call};
use std::hint::black_box;

/// Names of one length that differ at the end alone.
fn long_name(k: usize) -> Vec<u8> {
    format!("{:059}{:04}", 0, k).into_bytes()
}

/// The same with so many letters of two octets before them, whose case goes by the number.
fn accented_name(letters: usize, k: usize) -> Vec<u8> {
    let letter = if k % 2 == 0 { "ø" } else { "Ø" };
    format!("{}{:0width$}", letter.repeat(letters), k, width = 63 - 2 * letters).into_bytes()
}

/// 60 letters in either case and a number.
fn in_either_case(k: usize) -> Vec<u8> {
    let mut random = Random(k as u64);
    let letters: String = (0..60).map(|_| ['a', 'A'][random.below(2)]).collect();
    format!("{letters}{k:03}").into_bytes()
}

/// 45 letters s and a number; 15 of them are long ones, of two octets, at places that nothing foretells: all fold alike, and hardly
/// two names begin with the same octets.
fn of_long_s(k: usize) -> Vec<u8> {
    let mut random = Random(k as u64);
    let mut name = String::new();
    let mut long = 15;
    for left in (1..=45).rev() {
        if random.below(left) < long {
            name.push('ſ');
            long -= 1;
        } else {
            name.push(['s', 'S'][random.below(2)]);
        }
    }
    format!("{name}{k:03}").into_bytes()
}

/// The same character over and over, and a number.
fn repeated(character: char, count: usize, k: usize) -> Vec<u8> {
    format!("{}{k:03}", character.to_string().repeat(count)).into_bytes()
}

/// Names by their numbers, which are told apart as late as they may be.
pub type Names = fn(usize) -> Vec<u8>;

pub fn late_names() -> [(&'static str, Names); 6] {
    [
        ("accounts, ASCII in either case", in_either_case),
        ("accounts, an accent first in either case", |k| accented_name(1, k)),
        ("accounts, 29 accents in either case", |k| accented_name(29, k)),
        ("accounts, 20 characters of three octets", |k| repeated('€', 20, k)),
        ("accounts, 15 characters of four octets", |k| repeated('😀', 15, k)),
        ("accounts, s and long s", of_long_s),
    ]
}

/// Numbers below 1,000 in no order, each once.
pub fn scattered(k: usize) -> usize {
    k * 7919 % 1000
}

/// Orders of subnets, each number once.
pub fn falling(k: usize) -> usize {
    9_999 - k
}

pub fn mixed(k: usize) -> usize {
    k * 7_919 % 10_007
}

/// Networks in no order that share no octet, of the prefixes 24 to 32.
fn unlike(k: usize) -> (u32, u8) {
    let prefix = 24 + k % 9;
    // Multiples of this number are far apart.
    let address = (k as u32 + 1).wrapping_mul(2_654_435_769);
    (address & (u32::MAX << (32 - prefix)), prefix as u8)
}

/// Networks that share three octets but for one of them, so that they are sorted by every octet.
fn nearly_alike(k: usize) -> (u32, u8) {
    match k {
        0 => (0x0B00_0004, 30),
        _ => (0x0A00_0000 + ((mixed(k) as u32) << 8), 24),
    }
}

/// Each image with what it is, of 128 blocks but the first, and the answer that it must get.
fn images() -> Vec<(&'static str, Image, u8)> {
    let mut images = vec![
        ("5 blocks", Image::five_blocks(), 0),
        ("sites", Image::full_of_sites(), 0),
        ("subnets", Image::full_of_subnets(), 0),
        ("subnets in falling order", Image::of_subnets(falling), 0),
        ("subnets in no order", Image::of_subnets(mixed), 0),
        ("subnets that share no octet", Image::of_networks(unlike), 0),
        ("subnets, one unlike the others", Image::of_networks(nearly_alike), 0),
        ("all subnets the same", Image::of_subnets(|_| 0), 4),
        ("ordinary accounts", Image::full_of_accounts(), 0),
        ("accounts that differ at the end", Image::of_users(|k| long_name(scattered(k))), 0),
        ("the same in order", Image::of_users(long_name), 0),
        ("the same in falling order", Image::of_users(|k| long_name(999 - k)), 0),
        ("accounts, 29 accents in one case", Image::of_users(|k| accented_name(29, 2 * scattered(k))), 0),
        ("the last account twice", Image::of_users(|k| long_name(k.min(USERS - 2))), 4),
    ];
    images.extend(late_names().map(|(input, name)| (input, Image::of_users(|k| name(scattered(k))), 0)));
    images
}

pub fn print() {
    println!("{:<46} {:>6} {:>12} {:>12} {:>7}", "image", "answer", "pass ns", "judge ns", "ratio");
    for (name, image, answer) in images() {
        let octets: &'static [u8] = image.octets().to_vec().leak();
        let number = vinegarjar::judge(octets).map_or_else(|refusal| refusal.number(), |()| 0);
        assert_eq!(number, answer, "{name}");
        let whole: Call = Box::new(move || {
            black_box(&vinegarjar::judge(black_box(octets)));
        });
        let [over, whole] = medians_of([pass(octets), whole]);
        println!("{:<46} {:>6} {:>12.0} {:>12.0} {:>7.1}", name, answer, over, whole, whole / over);
    }
}
