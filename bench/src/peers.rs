//! What the proved library is measured against, as safe functions over bench/shims and zlib; the last three are proved calls. A peer that is not installed is not
//! linked: the first line of each of its functions ends it then, so that the compiler leaves the call out.
use std::ffi::{c_char, CStr};

#[derive(Clone, Copy, PartialEq, Eq)]
pub enum Peer {
    Second,
    Lber,
    Resolv,
    Samba,
    Zlib,
    FilterRead,
    FilterAnswered,
    MessageRead,
}

impl Peer {
    pub const ALL: [Peer; 8] = [
        Peer::Second,
        Peer::Lber,
        Peer::Resolv,
        Peer::Samba,
        Peer::Zlib,
        Peer::FilterRead,
        Peer::FilterAnswered,
        Peer::MessageRead,
    ];

    pub const fn is_installed(self) -> bool {
        match self {
            Peer::Second | Peer::FilterRead | Peer::FilterAnswered | Peer::MessageRead => true,
            Peer::Lber => cfg!(lber),
            Peer::Resolv => cfg!(resolv),
            Peer::Samba => cfg!(ndr),
            Peer::Zlib => cfg!(zlib),
        }
    }

    pub fn name(self) -> &'static str {
        match self {
            Peer::Second => "(a) second program",
            Peer::Lber => "(b) liblber",
            Peer::Resolv => "(c) libresolv",
            Peer::Samba => "(d) libndr-nbt",
            Peer::Zlib => "(e) zlib",
            Peer::FilterRead => "(f) its filter read",
            Peer::FilterAnswered => "(g) its filter answered",
            Peer::MessageRead => "(h) a message read",
        }
    }

    /// The Debian package that has its headers.
    pub fn package(self) -> &'static str {
        match self {
            Peer::Second | Peer::FilterRead | Peer::FilterAnswered | Peer::MessageRead => "none",
            Peer::Lber => "libldap-dev",
            Peer::Resolv => "libc6-dev",
            Peer::Samba => "samba-dev",
            Peer::Zlib => "zlib1g-dev",
        }
    }

    /// The most that the proved call may take, as a ratio to the peer's.
    pub fn target(self) -> f64 {
        match self {
            Peer::Second | Peer::Zlib | Peer::FilterAnswered | Peer::MessageRead => 1.0,
            Peer::Lber | Peer::FilterRead => 0.5,
            Peer::Resolv => 0.75,
            Peer::Samba => 0.25,
        }
    }
}

/// `struct berval`: octets where they lie.
#[repr(C)]
#[derive(Clone, Copy)]
pub struct Berval {
    length: usize,
    octets: *const u8,
}

impl Berval {
    pub fn of(octets: &'static [u8]) -> Berval {
        Berval { length: octets.len(), octets: octets.as_ptr() }
    }
}

extern "C" {
    fn lber_decode(filter: *const u8, length: usize, names: *mut Berval, values: *mut Berval) -> i32;
    fn lber_encode(names: *const Berval, values: *const Berval, count: i32, out: *mut u8) -> usize;
    fn resolv_compress(
        names: *const *const c_char,
        count: usize,
        message: *mut u8,
        room: usize,
        offset: usize,
    ) -> usize;
    fn resolv_expand(message: *const u8, length: usize, offsets: *const usize, count: usize, texts: *mut u8) -> i32;
    fn ndr_keep(octets: *const u8, length: usize, version: u32) -> bool;
    fn ndr_decode(octets: *const u8, length: usize, version: u32) -> bool;
    fn ndr_encode(out: *mut u8) -> usize;
    fn adler32(adler: u64, octets: *const u8, length: u32) -> u64;
}

/// The most equalities of a filter that is measured.
const EQUALITIES_MOST: usize = 8;

/// The equalities of a filter, as liblber decodes them.
pub struct Equalities {
    names: [Berval; EQUALITIES_MOST],
    values: [Berval; EQUALITIES_MOST],
    pub count: usize,
}

impl Equalities {
    pub fn of(clauses: &[(&'static [u8], &'static [u8])]) -> Equalities {
        let mut equalities = Equalities::none();
        for &(name, value) in clauses {
            equalities.names[equalities.count] = Berval::of(name);
            equalities.values[equalities.count] = Berval::of(value);
            equalities.count += 1;
        }
        equalities
    }

    pub fn none() -> Equalities {
        let empty = Berval::of(&[]);
        Equalities { names: [empty; EQUALITIES_MOST], values: [empty; EQUALITIES_MOST], count: 0 }
    }

    /// Takes the equalities of an AND of at most eight, each in place.
    pub fn decode(&mut self, filter: &[u8]) {
        assert!(cfg!(lber));
        let (names, values) = (self.names.as_mut_ptr(), self.values.as_mut_ptr());
        let count = unsafe { lber_decode(filter.as_ptr(), filter.len(), names, values) };
        self.count = count.try_into().expect("a filter that liblber decodes");
    }

    pub fn encode(&self, out: &mut [u8; 2048]) -> usize {
        assert!(cfg!(lber));
        unsafe { lber_encode(self.names.as_ptr(), self.values.as_ptr(), self.count as i32, out.as_mut_ptr()) }
    }
}

/// Writes names into a message from an offset on; the offset after them.
pub fn compress(names: &[&CStr; 8], message: &mut [u8], offset: usize) -> usize {
    assert!(cfg!(resolv));
    let names = names.map(CStr::as_ptr);
    unsafe { resolv_compress(names.as_ptr(), names.len(), message.as_mut_ptr(), message.len(), offset) }
}

/// Expands the names at the offsets, each into 256 octets of the texts; how many octets they take in the message.
pub fn expand(message: &[u8], offsets: &[usize; 8], texts: &mut [u8; 8 * 256]) -> i32 {
    assert!(cfg!(resolv));
    unsafe { resolv_expand(message.as_ptr(), message.len(), offsets.as_ptr(), offsets.len(), texts.as_mut_ptr()) }
}

/// Samba's struct of one EX reply is kept for `encode_kept`.
pub fn keep(reply: &[u8], version: u32) -> bool {
    assert!(cfg!(ndr));
    unsafe { ndr_keep(reply.as_ptr(), reply.len(), version) }
}

pub fn decode(reply: &[u8], version: u32) -> bool {
    assert!(cfg!(ndr));
    unsafe { ndr_decode(reply.as_ptr(), reply.len(), version) }
}

pub fn encode_kept(out: &mut [u8; 2048]) -> usize {
    assert!(cfg!(ndr));
    unsafe { ndr_encode(out.as_mut_ptr()) }
}

pub fn adler(octets: &[u8]) -> u64 {
    assert!(cfg!(zlib));
    unsafe { adler32(1, octets.as_ptr(), octets.len() as u32) }
}
