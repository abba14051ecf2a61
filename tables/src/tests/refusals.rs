//! An image that is not accepted is refused by document 01's number and the first rule that fails.

use super::{base_image, put_checks};
use crate::image::read_image;

fn refusal(image: &[u8]) -> String {
    read_image(image).unwrap_err().to_string()
}

/// The base table with octets changed, counted from the start of a block, and its checks made.
fn changed(block: usize, at: usize, octets: &[u8]) -> String {
    let mut image = base_image();
    let start = block * 512 + at;
    image[start..start + octets.len()].copy_from_slice(octets);
    put_checks(&mut image);
    refusal(&image)
}

#[test]
fn lengths_give_1() {
    for length in [0, 1, 512, 1_025, 66_048] {
        let expected = format!("refused with 1: the image: {length} octets; expected 2 to 128 blocks of 512");
        assert_eq!(refusal(&vec![0; length]), expected);
    }
}

#[test]
fn checks_give_2_before_layout() {
    assert_eq!(refusal(&[0; 1_024]), "refused with 2: block 0: check 00000000; expected 0100fc01");
    let mut image = base_image();
    image[4 * 512 - 1] ^= 1;
    assert!(refusal(&image).starts_with("refused with 2: block 3: check "));
}

#[test]
fn layout_gives_3() {
    let places = "expected 1 at block 0, 2 at block 1, 3 to 6 after them";
    let cases: [(usize, usize, &[u8], &str); 21] = [
        (2, 0, &[7], "block 2: kind 7; expected 1 to 6"),
        (2, 0, &[1], &format!("block 2: kind 1; {places}")),
        (0, 0, &[2], &format!("block 0: kind 2; {places}")),
        (1, 0, &[3], &format!("block 1: kind 3; {places}")),
        (4, 1, &[2], "block 4: version 2; expected 1"),
        (4, 2, &[3], "block 4: own place 3; expected 4"),
        (0, 4 + 16, &[16], "block 0: NetBIOS name of 16 octets: expected at most 15"),
        (0, 4 + 12, &[0], "block 0: own site 0: expected a site number from 1"),
        (0, 4 + 14, &[0], "block 0: default context 0: expected a context number from 1"),
        (1, 4 + 20, &[9], "block 1: octet 20 of the record is 9; expected 0"),
        (2, 4, &[0], "block 2: context number 0: expected one from 1"),
        (2, 4 + 2, &[2], "block 2: application octet 2: expected 0 or 1"),
        (2, 4 + 3, &[2], "block 2: has-SID octet 2: expected 0 or 1"),
        (2, 4 + 3, &[1], "block 2: SID of revision 0 and count 0: expected 1 and at most 15"),
        (2, 4 + 20, &[1], "block 2: octet 20 of the record is 1; expected 0"),
        (2, 4 + 358, &[1], "block 2: octet 358 of the record is 1; expected 0"),
        (3, 4, &[0], "record 0 of block 3: account's context 0: expected a context number from 1"),
        (3, 4 + 84, &[1], "record 1 of block 3: account name: expected 1 to 63 octets of UTF-8, none of them zero"),
        (4, 4, &[0], "record 0 of block 4: site number 0: expected one from 1"),
        (4, 4 + 2, &[64], "record 0 of block 4: site name of 64 octets: expected at most 63"),
        (4, 0, &[6], "record 0 of block 4: in-use octet 0: expected 1, or a record of zeros"),
    ];
    for (block, at, octets, expected) in cases {
        assert_eq!(changed(block, at, octets), format!("refused with 3: {expected}"));
    }
}

#[test]
fn the_whole_gives_4() {
    let no_site = "refused with 4: the image: there is no site; expected at least one";
    assert_eq!(changed(4, 4, &[0; 72]), no_site);
    assert_eq!(refusal(&base_image()[..4 * 512]), no_site);
    let other = "refused with 4: block 0: no site has number 2; expected one of the table's";
    assert_eq!(changed(0, 4 + 12, &[2]), other);
    let twice = "stands in record 0 of block 3 already; expected another";
    assert_eq!(
        changed(3, 4 + 84, b"\x01\0\0\0\0\0\0\0\x03ANN"),
        format!("refused with 4: record 1 of block 3: this account name in its context, case ignored, {twice}")
    );
}

/// 3 is judged over the whole image before 4.
#[test]
fn layout_comes_before_the_whole() {
    let mut image = base_image();
    image[4 + 12] = 2;
    image[4 * 512 + 1] = 2;
    put_checks(&mut image);
    assert_eq!(refusal(&image), "refused with 3: block 4: version 2; expected 1");
}
