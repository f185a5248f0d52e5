// Links the archive that `rt lib` writes in crates/crc_c.
fn main() {
    let archive = concat!(env!("CARGO_MANIFEST_DIR"), "/../../crates/crc_c/out");
    println!("cargo:rustc-link-search=native={archive}");
    println!("cargo:rustc-link-lib=static=crc_c");
    println!("cargo:rerun-if-changed={archive}/libcrc_c.a");
}
