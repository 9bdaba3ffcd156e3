use std::env;

fn main() {
    println!("cargo:rerun-if-changed=build.rs");
    println!("cargo:rerun-if-env-changed=LEVERAGE_LIB");
    if env::var_os("CARGO_FEATURE_LIBRARY").is_none() {
        return;
    }
    let folder = env::var("LEVERAGE_LIB")
        .expect("the feature `library` needs the library's folder in LEVERAGE_LIB");
    println!("cargo:rustc-link-search=native={folder}");
    for archive in ["leverage", "addon_bench"] {
        println!("cargo:rerun-if-changed={folder}/lib{archive}.a");
        println!("cargo:rustc-link-lib=static={archive}");
    }
}
