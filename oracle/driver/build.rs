// Links our library, kept by build.sh as build/oracle/linked.a.
fn main() {
    println!("cargo:rerun-if-changed=build.rs");
    if std::env::var_os("CARGO_FEATURE_OURS").is_some() {
        let here = std::env::var("CARGO_MANIFEST_DIR").unwrap();
        println!("cargo:rerun-if-changed=../linked.a");
        println!("cargo:rustc-link-arg-bins={here}/../linked.a");
    }
}
