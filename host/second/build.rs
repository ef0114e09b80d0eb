//! Says where the second planner's archive is; `make lib` puts it there.

fn main() {
    let manifest = std::env::var("CARGO_MANIFEST_DIR").expect("cargo names the manifest's folder");
    let build = format!("{manifest}/../../build");
    println!("cargo:rustc-link-search=native={build}");
    println!("cargo:rustc-link-lib=static=second");
    println!("cargo:rerun-if-changed={build}/libsecond.a");
}
