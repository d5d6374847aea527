//! With the feature `library`, finds the library as the Rust crate of the bindings does.

#[path = "../../bindings/rust/build.rs"]
mod library;

fn main() {
    println!("cargo::rerun-if-changed=build.rs");
    if std::env::var_os("CARGO_FEATURE_LIBRARY").is_some() {
        library::main();
    }
}
