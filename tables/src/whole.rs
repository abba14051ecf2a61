//! What the records must be together (answer 4 of document 01).

use crate::table::{Account, Context, ContextNumber, Fault, Place, Record, Server, Site, SiteNumber, Subnet, Table};
use second::folding::folded;
use std::collections::{BTreeMap, BTreeSet};

const MOST_CONTEXTS: usize = 16;

#[derive(Default)]
struct Records<'a> {
    servers: Vec<(Place, &'a Server)>,
    contexts: Vec<(Place, &'a Context)>,
    accounts: Vec<(Place, &'a Account)>,
    sites: Vec<(Place, &'a Site)>,
    subnets: Vec<(Place, &'a Subnet)>,
}

/// Judges a table whose records are good by themselves.
pub fn judge_whole(table: &Table) -> Result<(), Fault> {
    let records = gather(table);
    judge_counts(&records, table.end)?;
    judge_unique(&records)?;
    judge_references(&records)
}

fn gather(table: &Table) -> Records<'_> {
    let mut records = Records::default();
    for entry in table.entries() {
        match &entry.record {
            Record::Server(server) => records.servers.push((entry.place, server)),
            Record::Forest(_) => (),
            Record::Context(context) => records.contexts.push((entry.place, context)),
            Record::Account(account) => records.accounts.push((entry.place, account)),
            Record::Site(site) => records.sites.push((entry.place, site)),
            Record::Subnet(subnet) => records.subnets.push((entry.place, subnet)),
        }
    }
    records
}

fn judge_counts(records: &Records, end: Place) -> Result<(), Fault> {
    if records.contexts.is_empty() {
        return Err(Fault::new(end, "there is no context; expected 1 to 16"));
    }
    if let Some((place, _)) = records.contexts.get(MOST_CONTEXTS) {
        return Err(Fault::new(*place, "this is the 17th context; expected 1 to 16"));
    }
    if records.sites.is_empty() {
        return Err(Fault::new(end, "there is no site; expected at least one"));
    }
    Ok(())
}

fn judge_unique(records: &Records) -> Result<(), Fault> {
    let contexts = &records.contexts;
    unique(contexts, "context number", |context| Some(context.number))?;
    unique(contexts, "GUID", |context| Some(context.guid))?;
    unique(contexts, "SID", |context| context.sid.clone())?;
    unique(contexts, "DNS name, case ignored,", |context| Some(context.dns_name.to_ascii_lowercase()))?;
    unique(&records.sites, "site number", |site| Some(site.number))?;
    unique(&records.accounts, "account name in its context, case ignored,", |account| {
        folded(&account.name).map(|name| (account.context, name))
    })?;
    unique(&records.subnets, "address and prefix", |subnet| Some((subnet.address, subnet.prefix)))
}

/// No two records have the same key; a record without one is like no other.
fn unique<T, K: Ord>(held: &[(Place, &T)], what: &str, key: impl Fn(&T) -> Option<K>) -> Result<(), Fault> {
    let mut seen = BTreeMap::new();
    for (place, record) in held {
        let earlier = key(record).and_then(|key| seen.insert(key, *place));
        if let Some(earlier) = earlier {
            return Err(Fault::new(*place, format!("this {what} stands in {earlier} already; expected another")));
        }
    }
    Ok(())
}

fn judge_references(records: &Records) -> Result<(), Fault> {
    let contexts: BTreeSet<ContextNumber> = records.contexts.iter().map(|(_, context)| context.number).collect();
    let sites: BTreeSet<SiteNumber> = records.sites.iter().map(|(_, site)| site.number).collect();
    for (place, server) in &records.servers {
        require_site(&sites, *place, Some(server.own_site))?;
        require_context(&contexts, *place, server.default_context)?;
    }
    for (place, account) in &records.accounts {
        require_context(&contexts, *place, account.context)?;
    }
    for (place, site) in &records.sites {
        if site.next_closest == Some(site.number) {
            return Err(Fault::new(*place, "this site is its own next closest; expected another or none"));
        }
        require_site(&sites, *place, site.next_closest)?;
    }
    for (place, subnet) in &records.subnets {
        require_site(&sites, *place, subnet.site)?;
    }
    Ok(())
}

fn require_context(contexts: &BTreeSet<ContextNumber>, place: Place, number: ContextNumber) -> Result<(), Fault> {
    match contexts.contains(&number) {
        true => Ok(()),
        false => Err(Fault::new(place, format!("no context has number {}; expected one of the table's", number.0))),
    }
}

fn require_site(sites: &BTreeSet<SiteNumber>, place: Place, number: Option<SiteNumber>) -> Result<(), Fault> {
    match number {
        Some(number) if !sites.contains(&number) => {
            Err(Fault::new(place, format!("no site has number {}; expected one of the table's", number.0)))
        }
        _ => Ok(()),
    }
}
