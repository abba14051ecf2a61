//! The walk along one name of a reply (document 01, "Reading a reply"). It knows only octets and an offset, and
//! shares no rule with the reader, so that each can be held against the other.

use crate::octets::u16_big_endian_at;

#[derive(Debug, Default, PartialEq, Eq)]
pub struct Walk<'a> {
    pub labels: Vec<&'a [u8]>,
    pub pointers: usize,
}

/// Walks the name at an offset; none where some step fits no rule. Every pointer aims below the start of its run,
/// so the runs' starts fall and the walk ends.
pub fn walk(reply: &[u8], first_offset: usize) -> Option<Walk<'_>> {
    let mut walked = Walk::default();
    let mut run_start = first_offset;
    let mut offset = first_offset;
    loop {
        let octet = *reply.get(offset)?;
        match octet >> 6 {
            0b00 if octet == 0 => return Some(walked),
            0b00 => {
                let label_start = offset + 1;
                offset = label_start + usize::from(octet);
                walked.labels.push(reply.get(label_start..offset)?);
            }
            0b11 => {
                offset = aim_at(reply, offset).filter(|&aim| aim < run_start)?;
                run_start = offset;
                walked.pointers += 1;
            }
            _ => return None,
        }
    }
}

/// The low 14 bits of the pointer here, none where its second octet is missing.
fn aim_at(reply: &[u8], offset: usize) -> Option<usize> {
    u16_big_endian_at(reply, offset).map(|pointer| usize::from(pointer & 0x3FFF))
}

#[cfg(test)]
mod tests {
    use super::*;

    #[test]
    fn labels_and_pointers() {
        let reply = b"\x01a\x00\x01b\xC0\x00\xC0\x03";
        assert_eq!(walk(reply, 0), Some(Walk { labels: vec![b"a"], pointers: 0 }));
        assert_eq!(walk(reply, 2), Some(Walk::default()));
        assert_eq!(walk(reply, 3), Some(Walk { labels: vec![b"b", b"a"], pointers: 1 }));
        assert_eq!(walk(reply, 7), Some(Walk { labels: vec![b"b", b"a"], pointers: 2 }));
    }

    #[test]
    fn what_fits_no_rule_has_no_name() {
        assert_eq!(walk(b"", 0), None);
        assert_eq!(walk(b"\x00", 1), None);
        assert_eq!(walk(b"\x00", usize::MAX), None);
        assert_eq!(walk(b"\x02a", 0), None);
        assert_eq!(walk(b"\x01a", 0), None);
        assert_eq!(walk(b"\x40", 0), None);
        assert_eq!(walk(b"\x80", 0), None);
        assert_eq!(walk(b"\x00\xC0", 1), None);
        assert_eq!(walk(b"\xC0\x00", 0), None);
        assert_eq!(walk(b"\x01a\xC0\x00", 0), None);
        assert_eq!(walk(b"\x00\xC0\x05\x00\x00\x00", 1), None);
    }

    #[test]
    fn no_limit_of_pointers_or_octets() {
        let mut reply = vec![0, 0];
        for step in 0..20u8 {
            reply.extend([0xC0, 2 * step]);
        }
        assert_eq!(walk(&reply, 40).map(|walked| walked.pointers), Some(20));
        let long = [b"\x3F".to_vec(), vec![b'x'; 63]].concat().repeat(5);
        let walked = [long, vec![0]].concat();
        assert_eq!(walk(&walked, 0).map(|walked| walked.labels.len()), Some(5));
    }
}
