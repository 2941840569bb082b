//! Links the static library of the proved jobs: the archive that STRELINGA names. `tests/library` makes one and prints its path.

use std::path::Path;
use std::process::exit;

fn fail(trouble: &str) -> ! {
    eprintln!("strelinga: {trouble}");
    eprintln!("strelinga: set STRELINGA to the archive of the proved jobs, for instance in rust/: STRELINGA=$(../tests/library) cargo build");
    exit(1);
}

fn main() {
    println!("cargo:rerun-if-env-changed=STRELINGA");
    let Ok(named) = std::env::var("STRELINGA") else {
        fail("the environment variable STRELINGA is not set")
    };
    let archive = Path::new(&named);
    if !archive.is_absolute() {
        fail(&format!("STRELINGA is {named}, which is no absolute path"));
    }
    if !archive.is_file() {
        fail(&format!("STRELINGA is {named}, and there is no such file"));
    }
    let name = archive.file_name().and_then(|name| name.to_str()).unwrap_or("");
    let Some(library) = name.strip_prefix("lib").and_then(|name| name.strip_suffix(".a")) else {
        fail(&format!("STRELINGA is {named}, and the name of an archive is libNAME.a"))
    };
    let folder = archive.parent().unwrap_or(Path::new("/"));
    println!("cargo:rerun-if-changed={named}");
    println!("cargo:rustc-link-search=native={}", folder.display());
    println!("cargo:rustc-link-lib=static={library}");
}
