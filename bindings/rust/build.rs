//! Finds the library for C: README.md says where.

use std::env;
use std::path::{Path, PathBuf};
use std::process::exit;

const FORMS: [(&str, &str); 2] = [("libprecopy.a", "static"), ("libprecopy.so", "dylib")];

/// Returns the folders in which the library may be, and whether it must be in one of them.
fn folders() -> (Vec<PathBuf>, bool) {
    match env::var_os("PRECOPY_LIBRARY_DIR") {
        Some(folder) => (vec![folder.into()], true),
        None => {
            let here = PathBuf::from(env::var_os("CARGO_MANIFEST_DIR").unwrap_or_default());
            (vec![here.join("../../out/library"), here.join("../../../lib")], false)
        }
    }
}

/// Returns the form of the library that a folder has: the archive, or else the shared library.
fn form_in(folder: &Path) -> Option<&'static str> {
    let found = FORMS.iter().find(|(name, _)| folder.join(name).is_file());
    found.map(|(_, form)| *form)
}

fn main() {
    println!("cargo:rerun-if-env-changed=PRECOPY_LIBRARY_DIR");
    let (folders, must_be_there) = folders();
    for folder in &folders {
        for (name, _) in FORMS {
            println!("cargo:rerun-if-changed={}", folder.join(name).display());
        }
    }
    let found = folders.iter().find_map(|folder| Some((folder, form_in(folder)?)));
    match found {
        Some((folder, form)) => {
            println!("cargo:rustc-link-search=native={}", folder.display());
            println!("cargo:rustc-link-lib={form}=precopy");
        }
        None if must_be_there => {
            eprintln!("precopy: PRECOPY_LIBRARY_DIR has neither libprecopy.a nor libprecopy.so");
            exit(1);
        }
        None => println!("cargo:rustc-link-lib=precopy"),
    }
}
