//! With the feature `library`: link libfirmware.a from the folder that STATION_LIB_DIR names.

fn main() {
    println!("cargo:rerun-if-env-changed=STATION_LIB_DIR");
    println!("cargo:rerun-if-changed=build.rs");
    if std::env::var_os("CARGO_FEATURE_LIBRARY").is_some() {
        let folder = std::env::var("STATION_LIB_DIR").expect("STATION_LIB_DIR: the folder of libfirmware.a");
        println!("cargo:rerun-if-changed={folder}/libfirmware.a");
        println!("cargo:rustc-link-search=native={folder}");
        println!("cargo:rustc-link-lib=static=firmware");
    }
}
