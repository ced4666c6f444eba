// With the feature `library`, links libboundary.a from the folder KEEPER_ARCHIVE, by default target/native in this package, and with `counter`
// libcounter_boundary.a besides. scripts/compare and scripts/benchmark put the archives there.
fn main() {
    println!("cargo:rerun-if-env-changed=KEEPER_ARCHIVE");
    if std::env::var_os("CARGO_FEATURE_LIBRARY").is_none() {
        return;
    }
    let here = std::env::var("CARGO_MANIFEST_DIR").unwrap();
    let folder = std::env::var("KEEPER_ARCHIVE").unwrap_or(format!("{here}/target/native"));
    println!("cargo:rerun-if-changed={folder}/libboundary.a");
    println!("cargo:rustc-link-search=native={folder}");
    println!("cargo:rustc-link-lib=static=boundary");
    if std::env::var_os("CARGO_FEATURE_COUNTER").is_some() {
        println!("cargo:rerun-if-changed={folder}/libcounter_boundary.a");
        println!("cargo:rustc-link-lib=static=counter_boundary");
    }
}
