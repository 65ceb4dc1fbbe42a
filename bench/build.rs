//! Says where the proved library lies; `tools/native-archive station` puts it there.

fn main() {
    let native = concat!(env!("CARGO_MANIFEST_DIR"), "/../target/native");
    println!("cargo:rustc-link-search=native={native}");
    println!("cargo:rustc-link-lib=static=station");
    println!("cargo:rerun-if-changed={native}/libstation.a");
}
