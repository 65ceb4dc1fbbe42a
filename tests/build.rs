//! Says where the proved libraries lie; `tools/native-archive NAME` puts them there.

fn main() {
    let native = concat!(env!("CARGO_MANIFEST_DIR"), "/../target/native");
    println!("cargo:rustc-link-search=native={native}");
    for name in ["station", "desk"] {
        println!("cargo:rustc-link-lib=static={name}");
        println!("cargo:rerun-if-changed={native}/lib{name}.a");
    }
}
