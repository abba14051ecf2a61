//! The elements that filters are built of, with lengths in any spelling.

pub const AND: u8 = 0xA0;
pub const EQUALITY: u8 = 0xA3;
pub const STRING: u8 = 0x04;

/// How a length is spelled, whether or not it could be shorter.
#[derive(Clone, Copy)]
pub enum LengthForm {
    One,
    Two,
    Three,
}

pub const LENGTH_FORMS: [LengthForm; 3] = [LengthForm::One, LengthForm::Two, LengthForm::Three];

pub fn element_with(tag: u8, form: LengthForm, content: &[u8]) -> Vec<u8> {
    let length = content.len();
    let mut octets = vec![tag];
    match form {
        LengthForm::One => octets.push(length as u8),
        LengthForm::Two => octets.extend([0x81, length as u8]),
        LengthForm::Three => octets.extend([0x82, (length >> 8) as u8, length as u8]),
    }
    octets.extend(content);
    octets
}

pub fn element(tag: u8, content: &[u8]) -> Vec<u8> {
    let form = match content.len() {
        0..=0x7F => LengthForm::One,
        0x80..=0xFF => LengthForm::Two,
        _ => LengthForm::Three,
    };
    element_with(tag, form, content)
}

pub fn and(children: &[Vec<u8>]) -> Vec<u8> {
    element(AND, &children.concat())
}

pub fn equality(name: &[u8], value: &[u8]) -> Vec<u8> {
    element(EQUALITY, &[element(STRING, name), element(STRING, value)].concat())
}

pub fn version_6() -> Vec<u8> {
    equality(b"NtVer", &[6, 0, 0, 0])
}

pub fn nested(filter: Vec<u8>, depth: usize) -> Vec<u8> {
    (0..depth).fold(filter, |inner, _| and(&[inner]))
}
