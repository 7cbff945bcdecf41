//! Links the archive of the proved code, which `MOQ_EXPORTS` names.

fn main() {
    println!("cargo::rerun-if-env-changed=MOQ_EXPORTS");
    if let Ok(path) = std::env::var("MOQ_EXPORTS") {
        println!("cargo::rerun-if-changed={path}");
        println!("cargo::rustc-link-arg={path}");
    }
}
