//! Links `libarrowstream`, from the folder that `ARROWSTREAM_LIB_DIR` names or from those of the
//! system.

fn main() {
    println!("cargo:rerun-if-env-changed=ARROWSTREAM_LIB_DIR");
    if let Ok(folder) = std::env::var("ARROWSTREAM_LIB_DIR") {
        println!("cargo:rustc-link-search=native={folder}");
    }
    println!("cargo:rustc-link-lib=dylib=arrowstream");
}
