// Links the engine's static library. `make library` builds it into target/staticlib of the repository; another
// folder can be named in STATION_LIB_DIR, by its full path.
use std::env;
use std::path::PathBuf;

fn main() {
    let manifest = PathBuf::from(env::var_os("CARGO_MANIFEST_DIR").unwrap_or_default());
    let folder = env::var_os("STATION_LIB_DIR")
        .map(PathBuf::from)
        .unwrap_or_else(|| manifest.join("../../target/staticlib"));
    let library = folder.join("libengine.a");
    println!("cargo:rerun-if-env-changed=STATION_LIB_DIR");
    println!("cargo:rerun-if-changed={}", library.display());
    println!("cargo:rustc-link-search=native={}", folder.display());
    println!("cargo:rustc-link-lib=static=engine");
    if !library.exists() {
        println!(
            "cargo:warning={} is missing: build it, or name its folder in STATION_LIB_DIR",
            library.display()
        );
    }
}
