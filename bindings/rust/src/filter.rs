//! Filters: taken apart, judged, and written.

use crate::ffi;
use crate::{Refusal, Stretch};

/// The octets of the longest filter.
pub const FILTER_MOST: usize = 2048;

/// A filter's clauses, each absent or a stretch of octets. An empty one is present.
#[derive(Clone, Copy, Debug, Default, PartialEq, Eq)]
pub struct Request {
    /// The DNS name of the context asked for.
    pub dns_domain: Option<Stretch>,
    /// The client's NetBIOS name, which is not used.
    pub host: Option<Stretch>,
    /// The client's DNS name, which is not used.
    pub dns_host_name: Option<Stretch>,
    /// The account asked for.
    pub user: Option<Stretch>,
    /// Which accounts will do, four octets.
    pub aac: Option<Stretch>,
    /// The SID of the context asked for.
    pub domain_sid: Option<Stretch>,
    /// The GUID of the context asked for.
    pub domain_guid: Option<Stretch>,
    /// The version bits, four octets.
    pub nt_ver: Option<Stretch>,
}

/// A stretch that may not be there.
pub(crate) fn stretch_of(members: ffi::Stretch) -> Option<Stretch> {
    match members.present {
        0 => None,
        _ => Some(Stretch { start: members.start, length: members.length }),
    }
}

/// Its members.
pub(crate) fn stretch_members(stretch: Option<Stretch>) -> ffi::Stretch {
    match stretch {
        None => ffi::Stretch::default(),
        Some(Stretch { start, length }) => ffi::Stretch { present: 1, start, length },
    }
}

impl Request {
    fn of(request: &ffi::Request) -> Request {
        let [dns_domain, host, dns_host_name, user, aac, domain_sid, domain_guid, nt_ver] =
            request.clauses.map(stretch_of);
        Request { dns_domain, host, dns_host_name, user, aac, domain_sid, domain_guid, nt_ver }
    }

    fn members(&self) -> ffi::Request {
        let clauses = [
            self.dns_domain,
            self.host,
            self.dns_host_name,
            self.user,
            self.aac,
            self.domain_sid,
            self.domain_guid,
            self.nt_ver,
        ];
        ffi::Request { clauses: clauses.map(stretch_members) }
    }
}

/// Takes a filter apart into its clauses, or refuses it by 5 to 8.
pub fn take_apart(filter: &[u8]) -> Result<Request, Refusal> {
    let (number, request) = ffi::take_apart(filter);
    Refusal::of(number)?;
    Ok(Request::of(&request))
}

/// The version that a filter's clauses ask for, or 9 by their values. Without NtVer it is 1.
pub fn judge_values(filter: &[u8], request: &Request) -> Result<u32, Refusal> {
    let (number, version) = ffi::judge_values(filter, &request.members());
    Refusal::of(number)?;
    Ok(version)
}

/// Writes a filter of the clauses present, whose octets lie in the source, and gives its length; or refuses by 6, 5 or 19.
pub fn write_filter(source: &[u8], request: &Request, out: &mut [u8]) -> Result<usize, Refusal> {
    let (number, length) = ffi::write_filter(source, &request.members(), out);
    Refusal::of(number)?;
    Ok(length)
}
