// Tells cargo where the proved static library is: in the folder TICKPLUME_LIB_DIR, or else in the repository's
// target/native, where scripts/native-library writes it. Where it is missing the build stops here, with one sentence.
use std::env;
use std::path::PathBuf;

fn main() {
    println!("cargo:rerun-if-env-changed=TICKPLUME_LIB_DIR");
    println!("cargo:rerun-if-env-changed=DOCS_RS");
    match library_folder() {
        Ok(folder) => {
            println!("cargo:rustc-link-search=native={}", folder.display());
            println!("cargo:rustc-link-lib=static=tickplume");
        }
        // The pages of `cargo doc` need no library. docs.rs sets DOCS_RS; so may anybody who wants the pages alone.
        Err(_) if env::var_os("DOCS_RS").is_some() => {}
        Err(sentence) => stop(&sentence),
    }
}

/// The folder that has the library, or what is wrong.
fn library_folder() -> Result<PathBuf, String> {
    let crate_folder = PathBuf::from(env::var_os("CARGO_MANIFEST_DIR").expect("cargo tells the crate's folder"));
    let repository = crate_folder.parent().unwrap_or(&crate_folder);
    let named = env::var_os("TICKPLUME_LIB_DIR").filter(|name| !name.is_empty()).map(PathBuf::from);
    let folder = named.clone().unwrap_or_else(|| repository.join("target/native"));
    let archive = folder.join("libtickplume.a");
    println!("cargo:rerun-if-changed={}", archive.display());
    let (archive, repository) = (archive.display(), repository.display());
    match named {
        // cargo runs this script in the crate's folder and the linker elsewhere
        Some(name) if name.is_relative() => {
            Err(format!("TICKPLUME_LIB_DIR is {}, but it has to be a full path, from / on", name.display()))
        }
        _ if folder.join("libtickplume.a").is_file() => Ok(folder),
        Some(_) => Err(format!(
            "{archive} is missing: run `scripts/install PREFIX` in {repository} and set TICKPLUME_LIB_DIR=PREFIX/lib"
        )),
        None => Err(format!(
            "{archive} is missing: run `scripts/native-library tickplume` in {repository}, or set TICKPLUME_LIB_DIR \
             to the folder that has it"
        )),
    }
}

/// Ends the build with a sentence. A cargo from 1.84 on takes the line as its own error and says nothing else; one that
/// knows `cargo::` but not this key stops at the line and shows it. One that is older still would pass over it and go
/// on to the linker. Such a cargo does not set CARGO_MANIFEST_PATH, and there the script itself fails.
fn stop(sentence: &str) {
    if env::var_os("CARGO_MANIFEST_PATH").is_some() {
        println!("cargo::error={sentence}");
    } else {
        eprintln!("error: {sentence}");
        std::process::exit(1);
    }
}
