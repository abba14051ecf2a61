//! Finds both libraries: in the folder that VINEGARJAR_LIB names, else where `rt lib` writes them in `crates/vinegarjar` and `crates/vinegarjar_table`.

fn main() {
    println!("cargo:rerun-if-env-changed=VINEGARJAR_LIB");
    let named = std::env::var("VINEGARJAR_LIB");
    for library in ["vinegarjar", "vinegarjar_table"] {
        let written = format!(concat!(env!("CARGO_MANIFEST_DIR"), "/../../crates/{}/out"), library);
        let folder = named.as_ref().unwrap_or(&written);
        println!("cargo:rustc-link-search=native={folder}");
        println!("cargo:rerun-if-changed={folder}/lib{library}.a");
    }
}
