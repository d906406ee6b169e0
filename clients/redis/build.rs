//! Links the verified core, a static library: the file that JENTRY_EMBED names, else crates/embed/out/libembed.a of this repository.
use std::env;
use std::path::PathBuf;

const DEFAULT: &str = "../../crates/embed/out/libembed.a";

fn main() {
    println!("cargo:rerun-if-env-changed=JENTRY_EMBED");
    let home = PathBuf::from(
        env::var("CARGO_MANIFEST_DIR").expect("cargo names the folder of the manifest"),
    );
    let library = env::var_os("JENTRY_EMBED").map_or_else(|| home.join(DEFAULT), PathBuf::from);
    if !library.is_file() {
        eprintln!("there is no {}: build it by `bin/rt lib` in crates/embed, or name another in JENTRY_EMBED", library.display());
        std::process::exit(1);
    }
    println!("cargo:rerun-if-changed={}", library.display());
    println!("cargo:rustc-link-arg={}", library.display());
    println!("cargo:rustc-link-arg=-Wl,-z,defs,-z,text,--exclude-libs,ALL");
}
