//! Links the proved library: the one that `rt lib` leaves in `crates/finder_c/out/` of the repository, or, where that was removed, the copy that
//! `tools/build` keeps under `rust/target/`, for `./example`, `./install` and `./test`.
use std::path::Path;

fn main() {
    let package = std::env::var("CARGO_MANIFEST_DIR").expect("cargo sets CARGO_MANIFEST_DIR");
    let made = (Path::new(&package).join("../../crates/finder_c/out"), "finder_c");
    let kept = (Path::new(&package).join("../target/proved"), "finder");
    let archive = |folder: &Path, name: &str| folder.join(format!("lib{name}.a"));
    for (folder, name) in [&made, &kept] {
        println!("cargo:rerun-if-changed={}", archive(folder, name).display());
    }
    let Some((folder, name)) = [&made, &kept].into_iter().find(|(folder, name)| archive(folder, name).exists()) else {
        eprintln!("error: the proved library is missing; run in crates/finder_c: rt lib");
        std::process::exit(1);
    };
    if *name == kept.1 {
        println!("cargo:warning=linked with the library that tools/build kept; for that of the sources as they are run in crates/finder_c: rt lib");
    }
    println!("cargo:rustc-link-search=native={}", folder.display());
    println!("cargo:rustc-link-lib=static={name}");
    println!("cargo:rustc-env=LIBFINDER={}", archive(folder, name).display());
}
