//! Links the library under test when the feature `tds` asks for it: the static
//! library libtds.a, from the folder that TDS_LIB_DIR names.

fn main() {
    println!("cargo:rerun-if-env-changed=TDS_LIB_DIR");
    if std::env::var_os("CARGO_FEATURE_TDS").is_none() {
        return;
    }
    let folder = std::env::var("TDS_LIB_DIR")
        .expect("the feature `tds` needs TDS_LIB_DIR, the folder that holds libtds.a");
    println!("cargo:rustc-link-search=native={folder}");
    println!("cargo:rustc-link-lib=static=tds");
    println!("cargo:rerun-if-changed={folder}/libtds.a");
}
