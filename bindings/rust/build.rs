// Where libffi.a is: MDR_LIB_DIR, or target/staticlib of the repository.
use std::env;
use std::path::PathBuf;

fn main() {
    let dir = match env::var_os("MDR_LIB_DIR") {
        Some(dir) => PathBuf::from(dir),
        None => PathBuf::from(env::var_os("CARGO_MANIFEST_DIR").unwrap()).join("../../target/staticlib"),
    };
    let lib = dir.join("libffi.a");
    if !lib.is_file() {
        panic!("no {}: run `tools/make ffi` in the repository, or set MDR_LIB_DIR", lib.display());
    }
    println!("cargo:rerun-if-env-changed=MDR_LIB_DIR");
    println!("cargo:rerun-if-changed={}", lib.display());
    println!("cargo:rustc-link-search=native={}", dir.display());
    println!("cargo:rustc-link-lib=static=ffi");
}
