//! Links the archive of the C boundary, which `./cablesound build` leaves in the project's target/.

use std::path::Path;

fn main() {
    let archives = Path::new(env!("CARGO_MANIFEST_DIR")).join("../../target/staticlib");
    let archive = archives.join("libboard.a");
    println!("cargo:rerun-if-changed={}", archive.display());
    if !archive.exists() {
        panic!("no {}: run `./cablesound build` first", archive.display());
    }
    println!("cargo:rustc-link-search=native={}", archives.display());
    println!("cargo:rustc-link-lib=static=board");
}
