//! Links the static library, from the folder that HAVZELTIS_LIB names.
fn main() {
    println!("cargo::rerun-if-env-changed=HAVZELTIS_LIB");
    let folder =
        std::env::var("HAVZELTIS_LIB").expect("set HAVZELTIS_LIB to the folder of libccompile.a");
    println!("cargo::rerun-if-changed={folder}/libccompile.a");
    println!("cargo::rustc-link-search=native={folder}");
    println!("cargo::rustc-link-lib=static=ccompile");
}
