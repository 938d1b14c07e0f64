//! Links the proved library, target/staticlib/libbench.a; BENCH_LIBRARY names another folder that holds one.
use std::env;
use std::path::PathBuf;

fn main() {
    let folder = match env::var("BENCH_LIBRARY") {
        Ok(named) => PathBuf::from(named),
        Err(_) => PathBuf::from(env::var("CARGO_MANIFEST_DIR").unwrap()).join("../../target/staticlib"),
    };
    println!("cargo:rerun-if-env-changed=BENCH_LIBRARY");
    println!("cargo:rerun-if-changed={}", folder.join("libbench.a").display());
    println!("cargo:rustc-link-search=native={}", folder.display());
    println!("cargo:rustc-link-lib=static=bench");
}
