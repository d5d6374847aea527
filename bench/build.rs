//! With the feature `before`, links the second library: libbefore.a in the folder BENCH_BEFORE, both from bench/run.

fn main() {
    println!("cargo::rerun-if-changed=build.rs");
    println!("cargo::rerun-if-env-changed=BENCH_BEFORE");
    if std::env::var_os("CARGO_FEATURE_BEFORE").is_some() {
        let folder = std::env::var("BENCH_BEFORE").expect("bench/run names the folder of libbefore.a");
        println!("cargo::rerun-if-changed={folder}/libbefore.a");
        println!("cargo::rustc-link-search=native={folder}");
        println!("cargo::rustc-link-lib=static=before");
    }
}
