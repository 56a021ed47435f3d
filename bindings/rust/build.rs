//! Finds the static library, in the directory `KOLFSEIN_LIB_DIR` or else where `rt lib` puts it, and refuses one of
//! another interface.

use std::path::PathBuf;
use std::{env, fs, process};

/// The function that the library has where its interface is that of `src/c.rs`, as an archive names it.
const INTERFACE: &[u8] = b"kolfsein_interface_1\0";

fn main() {
    println!("cargo:rerun-if-env-changed=KOLFSEIN_LIB_DIR");
    let directory = match env::var_os("KOLFSEIN_LIB_DIR") {
        Some(directory) => PathBuf::from(directory),
        None => package().join("../../crates/kolfsein/out"),
    };
    let library = directory.join("libkolfsein.a");
    println!("cargo:rerun-if-changed={}", library.display());
    match fs::read(&library) {
        Ok(bytes) if has(&bytes, INTERFACE) => {}
        Ok(_) => refuse(format!(
            "{} is of another interface than this crate.",
            library.display()
        )),
        Err(error) => refuse(format!("{} is not read: {error}.", library.display())),
    }
    println!("cargo:rustc-link-search=native={}", directory.display());
    println!("cargo:rustc-link-lib=static=kolfsein");
}

/// Whether a name stands somewhere in some bytes.
fn has(bytes: &[u8], name: &[u8]) -> bool {
    bytes.windows(name.len()).any(|window| window == name)
}

/// Ends the build, with what is wrong and what to do.
fn refuse(wrong: String) -> ! {
    eprintln!("{wrong}");
    eprintln!("Run `rt lib` in crates/kolfsein of the repository that this crate is of,");
    eprintln!("which writes the library, or set KOLFSEIN_LIB_DIR to the absolute path of the directory that has it.");
    process::exit(1);
}

/// The directory of this package.
fn package() -> PathBuf {
    PathBuf::from(env::var_os("CARGO_MANIFEST_DIR").expect("cargo sets CARGO_MANIFEST_DIR"))
}
