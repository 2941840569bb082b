//! Links the proved jobs: the archive or object that STRELINGA names.

fn main() {
    println!("cargo:rerun-if-env-changed=STRELINGA");
    let library = std::env::var("STRELINGA").expect("STRELINGA names libterminal.a");
    println!("cargo:rerun-if-changed={library}");
    println!("cargo:rustc-link-arg={library}");
}
