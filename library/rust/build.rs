//! Links libants.a of the folder that ANTS_LIB_DIR names, or else of the one above this crate, where `make library` puts it, or of an installed `lib`.
//! Where none is there, `cargo check`, `clippy` and `doc` still work, and what links is refused.
use std::{env, path::Path};

fn main() {
    println!("cargo:rerun-if-env-changed=ANTS_LIB_DIR");
    let top = env::var("CARGO_MANIFEST_DIR").expect("cargo names the crate's folder");
    let places = [env::var("ANTS_LIB_DIR").unwrap_or_default(), format!("{top}/.."), format!("{top}/../../../lib")];
    for place in &places {
        println!("cargo:rerun-if-changed={place}/libants.a");
    }
    match places.iter().find(|it| Path::new(it).join("libants.a").exists()) {
        Some(place) => println!("cargo:rustc-link-search=native={place}"),
        None => println!("cargo:warning=no libants.a, so nothing links: `make library` makes it, and ANTS_LIB_DIR may name its folder"),
    }
    println!("cargo:rustc-link-lib=static=ants");
}
