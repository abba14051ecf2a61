//! Links the proved library, anew whenever it was built anew, and compiles the shims of the peers that are installed.
use std::env::var;
use std::path::Path;
use std::process::{Command, Stdio};

/// What is measured against, where its headers are there: its name is that of a cfg and, where it has one, of its shim.
struct Peer {
    name: &'static str,
    header: &'static str,
    libraries: &'static [&'static str],
}

const PEERS: [Peer; 4] = [
    Peer { name: "lber", header: "lber.h", libraries: &["lber"] },
    Peer { name: "resolv", header: "resolv.h", libraries: &["resolv"] },
    Peer { name: "ndr", header: "ndr/ndr_nbt.h", libraries: &["ndr-nbt", "ndr", "samba-util", "talloc"] },
    Peer { name: "zlib", header: "zlib.h", libraries: &["z"] },
];

/// Where Debian puts Samba's headers.
const INCLUDES: &str = "-I/usr/include/samba-4.0";

fn main() {
    let library = concat!(env!("CARGO_MANIFEST_DIR"), "/../crates/bench/out");
    println!("cargo:rustc-link-search=native={library}");
    println!("cargo:rerun-if-changed={library}/libbench.a");
    println!("cargo:rerun-if-changed=shims");
    compile("stack");
    for peer in PEERS {
        println!("cargo:rustc-check-cfg=cfg({})", peer.name);
        if is_installed(peer.header) {
            println!("cargo:rustc-cfg={}", peer.name);
            compile(peer.name);
            peer.libraries.iter().for_each(|library| println!("cargo:rustc-link-arg=-l{library}"));
        }
    }
}

fn is_installed(header: &str) -> bool {
    let mut compiler = Command::new("cc");
    compiler.args(["-E", INCLUDES, "-include", header, "-x", "c", "/dev/null"]);
    compiler.stdout(Stdio::null()).stderr(Stdio::null()).status().is_ok_and(|status| status.success())
}

/// Compiles a shim, where the name has one, and links it before the libraries that are named after it.
fn compile(name: &str) {
    let source = format!("shims/{name}.c");
    if !Path::new(&source).exists() {
        return;
    }
    let object = format!("{}/{name}.o", var("OUT_DIR").expect("a folder"));
    let status = Command::new("cc").args(["-O2", "-Wall", INCLUDES, "-c", &source, "-o", &object]).status();
    assert!(status.is_ok_and(|status| status.success()), "cc {source}");
    println!("cargo:rustc-link-arg={object}");
}
