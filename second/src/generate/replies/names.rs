//! Read lines about names, in both forms that have them: aims, faults before a pointer and after one, and limits.

use super::super::requests::Requests;
use super::build::{
    chain, fill_names, labels, names_at, pointer, with_guid, with_names, with_texts, ADDRESS, GUID, GUID_AT, NAMED,
};
use crate::choose::Form;

pub fn add_all(requests: &mut Requests) {
    for form in NAMED {
        let mut names = Names { requests, form, at: names_at(form) };
        names.add_aims();
        names.add_labels();
        names.add_labels_over_pointers();
        names.add_faults();
        names.add_faults_after_pointers();
        names.add_limits();
        names.add_chains();
    }
    add_chains_in_texts(requests);
    add_aims_at_texts(requests);
    add_aims_at_address(requests);
}

/// The lines for one form, and where its names begin.
struct Names<'r> {
    requests: &'r mut Requests,
    form: Form,
    at: usize,
}

impl Names<'_> {
    fn read_octets(&mut self, octets: &[u8]) {
        let version = if self.form == Form::Ex { 0x4 } else { 0x2 };
        self.requests.read(self.form, version, octets);
    }

    /// A reply with these names and empty ones after them.
    fn read(&mut self, names: &[&[u8]]) {
        self.read_octets(&with_names(self.form, names));
    }

    /// The same, ended after the last of these names.
    fn read_cut(&mut self, names: &[&[u8]]) {
        let length = self.at + names.concat().len();
        self.read_octets(&with_names(self.form, names)[..length]);
    }

    fn add_aims(&mut self) {
        self.requests.note("aims at every octet of the header, around the pointer, and far off");
        let at = self.at;
        for aim in (0..26).chain(at - 1..at + 16) {
            self.read(&[&pointer(aim)]);
        }
        for aim in at - 1..at + 16 {
            self.read(&[b"\x01x\x00", &[&b"\x01y"[..], &pointer(aim)].concat()]);
        }
        for aim in [60, 100, 255, 256, 0x3FFF] {
            self.read(&[&pointer(aim)]);
        }
        // At a pointer, and at the second octet of one.
        self.read(&[b"\x01x\x00", &[&b"\x01y"[..], &pointer(at)].concat(), &pointer(at + 5)]);
        self.read(&[b"\x00", &pointer(0), &pointer(at + 2)]);
        let long = [labels(&[63, 63, 63, 57]), vec![0]].concat();
        self.read(&[&long, b"\x01a\x00", &pointer(at + long.len())]);
        self.read(&[&long, b"\x01a\x00", &[&b"\x01y"[..], &pointer(at + long.len())].concat()]);
    }

    fn add_labels(&mut self) {
        self.requests.note("labels with dots, zeros and pointers in them, and aims into such labels");
        let at = self.at;
        self.read(&[b"\x03a.b\x00"]);
        self.read(&[b"\x03\x00\x00\x00\x00", b"\x01.\x00", &pointer(at + 1)]);
        self.read(&[b"\x05\x01a\x01b\x00\x00", &pointer(at + 1), &pointer(at + 3)]);
        for aim in [0, at] {
            let hidden = [&b"\x04\x01a"[..], &pointer(aim), b"\x00"].concat();
            self.read(&[&hidden, &pointer(at + 1)]);
            self.read(&[&hidden, &pointer(at + 1), &pointer(at + 6)]);
        }
        self.read(&[b"\x03\xC0\xFF\x80\x00", b"\x01\xBF\x00"]);
    }

    /// A run that goes on past the pointer that led to it, ending in each way.
    fn add_labels_over_pointers(&mut self) {
        self.requests.note("labels that reach over the pointer that leads to them");
        let at = self.at;
        for length in at - 18..at - 8 {
            let mut reply = with_names(self.form, &[&pointer(16), b"\x01z\x00"]);
            reply[16] = length as u8;
            self.read_octets(&reply);
            for cut in [at + 2, at + 6, at + 16] {
                self.read_octets(&reply[..cut]);
            }
        }
    }

    fn add_faults(&mut self) {
        self.requests.note("names broken or cut before any pointer");
        let at = self.at;
        for first in [0x40, 0x41, 0x7F, 0x80, 0x9F, 0xBF] {
            self.read(&[&[first, 0]]);
            self.read(&[b"\x01a", &[first, 0]]);
            self.read_cut(&[&[first]]);
        }
        for cut in [&b"\x01"[..], b"\x02a", b"\x01a", b"\xC0", b"\xFF", b"\x01a\xC0", b"\x3F"] {
            self.read_cut(&[cut]);
            self.read_cut(&[b"\x01x\x00", cut]);
        }
        // Aims at the pointer itself and into its own run, though an octet there would end the name well.
        for aim in 0..5 {
            self.read(&[&[&b"\x01a"[..], &pointer(at + aim)].concat()]);
            self.read(&[&[&b"\x03\x01x\x00"[..], &pointer(at + aim)].concat()]);
            self.read(&[b"\x01a\x00", &[&b"\x03\x01x\x00"[..], &pointer(at + 3 + aim)].concat()]);
        }
        self.read(&[b"\x01a\x00", &pointer(at + 5), &pointer(at + 3)]);
        // As the last name, where those before it are good.
        let last = if self.form == Form::Ex { 8 } else { 3 };
        for place in 0..last {
            self.read(&[&vec![&b"\x00"[..]; place][..], &[b"\x40"]].concat());
        }
    }

    /// Each fault in a run of its own in the GUID, reached by a pointer alone and by one after a label.
    fn add_faults_after_pointers(&mut self) {
        self.requests.note("names broken or cut after a pointer");
        let guid = GUID_AT as u8;
        let to_end = with_names(self.form, &[&pointer(GUID_AT)]).len() as u8 - guid - 1;
        let runs: [&[u8]; 16] = [
            &[0x40],
            &[0x7F],
            &[0x80],
            &[0xBF],
            &[0xC0, guid],
            &[1, b'a', 0xC0, guid],
            &[1, b'a', 0xC0, guid + 2],
            &[3, 1, b'x', 0, 0xC0, guid + 1],
            &[0xC0, guid + 1],
            &[1, b'a', 0xC0, guid + 8],
            &[0xC0, 0xFF],
            &[0xFF, 0xFF],
            &[63],
            &[to_end + 1],
            &[to_end],
            &[to_end - 1],
        ];
        for run in runs {
            let mut guid = [0; 16];
            guid[..run.len()].copy_from_slice(run);
            for name in [pointer(GUID_AT).to_vec(), [&b"\x01y"[..], &pointer(GUID_AT)].concat()] {
                self.read_octets(&with_guid(self.form, &guid, &fill_names(self.form, &[&name])));
            }
        }
    }

    fn add_limits(&mut self) {
        self.requests.note("names of 255 octets and of 256, whole, cut, and by way of pointers");
        let three = labels(&[63, 63, 63]);
        for last in 60..=62 {
            let name = [three.clone(), labels(&[last])].concat();
            self.read(&[&[&name[..], b"\x00"].concat()]);
            for cut in [193, 194, name.len()] {
                self.read_cut(&[&name[..cut]]);
            }
        }
        for (last, added) in [(60, 0), (60, 1), (61, 0), (61, 1), (59, 1), (59, 2)] {
            let one_more = [three.clone(), labels(&[last]), labels(&[added]), vec![0]].concat();
            self.read(&[&one_more]);
        }
        for first in [58, 60, 61, 62, 63] {
            let long = [three.clone(), vec![0]].concat();
            let by_pointer = [labels(&[first]), pointer(self.at).to_vec()].concat();
            self.read(&[&long, &by_pointer]);
        }
        for count in [126, 127, 128] {
            let name = [labels(&vec![1; count]), vec![0]].concat();
            self.read(&[&name]);
        }
    }

    fn add_chains(&mut self) {
        self.requests.note("chains of pointers inside a label, up to sixteen and more, and chains of names");
        for pointers in 1..=20 {
            let hidden = chain(self.at + 1, pointers - 1);
            let last = self.at + 1 + (hidden.len() - 1).saturating_sub(1);
            let name = [&[hidden.len() as u8], &hidden[..], b"\x00"].concat();
            self.read(&[&name, &pointer(last)]);
            self.read(&[&name, &[&b"\x01c"[..], &pointer(last)].concat()]);
        }
        // Each name a label and a pointer to the name before it.
        let count = if self.form == Form::Ex { 8 } else { 3 };
        let mut names = b"\x01r\x00".to_vec();
        let mut before = self.at;
        for place in 1..count {
            let start = self.at + names.len();
            names.extend([labels(&[place]), pointer(before).to_vec()].concat());
            before = start;
        }
        self.read_octets(&with_guid(self.form, &GUID, &names));
    }
}

/// RESPONSE replies whose first text holds a chain of pointers, and a forest name that enters it at its last one.
pub fn response_with_chain(pointers: usize) -> Vec<u8> {
    let mut texts = vec![0, 0];
    let mut aim = 3;
    for _ in 1..pointers {
        let at = 2 + texts.len();
        texts.extend(pointer(aim));
        aim = at;
    }
    texts.extend([0; 4]);
    with_texts(Form::Response, &texts, &GUID, &fill_names(Form::Response, &[&pointer(aim)]))
}

fn add_chains_in_texts(requests: &mut Requests) {
    requests.note("chains of pointers in texts, and loops");
    for pointers in [1, 2, 15, 16, 17, 18] {
        requests.read(Form::Response, 0x2, &response_with_chain(pointers));
    }
    for (first, second) in [(4, 4), (6, 4), (4, 6)] {
        let mut reply = response_with_chain(3);
        reply[5] = first;
        reply[7] = second;
        requests.read(Form::Response, 0x2, &reply);
    }
}

/// Aims into texts, the farthest that 14 bits can have among them.
fn add_aims_at_texts(requests: &mut Requests) {
    requests.note("aims into texts, up to 3FFFh");
    let texts = b"\x01s\0\0\x01u\0\0\x01d\0\0";
    for aim in 2..14 {
        let names = fill_names(Form::Response, &[&pointer(aim)]);
        requests.read(Form::Response, 0x2, &with_texts(Form::Response, texts, &GUID, &names));
    }
    // The octets at 3FFFh are 01 7A 00, a label and a zero octet.
    let mut far = b"a\x00".repeat((0x3FFE - 2) / 2);
    far.extend([b'a', 0x01, b'z', 0x00, 0, 0, 0, 0, 0, 0]);
    let names = fill_names(Form::Response, &[&pointer(0x3FFF)]);
    requests.read(Form::Response, 0x2, &with_texts(Form::Response, &far, &GUID, &names));
}

/// Name 8 comes after the address, so that it can aim there.
fn add_aims_at_address(requests: &mut Requests) {
    requests.note("aims of name 8 at the address");
    for place in 0..ADDRESS.len() {
        let names = [&[0; 8], &ADDRESS[..], &pointer(names_at(Form::Ex) + 8 + place)].concat();
        let mut reply = with_guid(Form::Ex, &GUID, &names);
        let version_at = reply.len() - 8;
        reply[version_at] = 0x15;
        requests.read(Form::Ex, 0x18, &reply);
    }
}
