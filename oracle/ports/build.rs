//! Links the static library that the environment names.

/// Tells cargo the folder of the library, and to link it.
fn main() {
    let library =
        std::env::var("LATCHBEACON_LIBRARY").expect("LATCHBEACON_LIBRARY names the library");
    let folder = std::path::Path::new(&library).parent().expect("a folder");
    println!("cargo:rerun-if-env-changed=LATCHBEACON_LIBRARY");
    println!("cargo:rerun-if-changed={library}");
    println!("cargo:rustc-link-search=native={}", folder.display());
    println!("cargo:rustc-link-lib=static=latchbeacon");
}
