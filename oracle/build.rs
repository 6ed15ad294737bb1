// Links the static library that GATELICHEN_LIBRARY names.
fn main() {
    println!("cargo:rerun-if-env-changed=GATELICHEN_LIBRARY");
    if std::env::var_os("CARGO_FEATURE_LIBRARY").is_some() {
        let library = std::env::var("GATELICHEN_LIBRARY").expect("GATELICHEN_LIBRARY names the static library");
        println!("cargo:rerun-if-changed={library}");
        println!("cargo:rustc-link-arg-bins={library}");
    }
}
