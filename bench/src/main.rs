//! Measures the proved calls: beside their peers, at worst, and by their parts.
mod calls;
mod compared;
mod image;
mod judge;
mod measure;
mod peers;
mod ping;
mod pings;
mod read;
mod replies;
mod worst;

fn main() {
    let words: Vec<String> = std::env::args().skip(1).collect();
    match words.iter().map(String::as_str).collect::<Vec<_>>().as_slice() {
        [] => compared::print(),
        ["worst"] => worst::print(),
        ["judge"] => judge::print(),
        ["ping"] => ping::print(),
        ["read"] => read::print(),
        [compared::COUNTED] => compared::count(),
        [worst::COUNTED] => worst::count(),
        _ => panic!("takes nothing, or one of: worst, judge, ping, read"),
    }
}
