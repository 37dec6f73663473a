//! Links the proved library: the archive that `MORGANA_ARCHIVE` names, or the one that `tools/build` leaves.

use std::env;
use std::path::{Path, PathBuf};

/// Where the archive stands when `MORGANA_ARCHIVE` is not set, relative to this package.
const DEFAULT: &str = "../target/staticlib/libmorgana.a";

fn main() {
    println!("cargo::rerun-if-env-changed=MORGANA_ARCHIVE");
    if let Err(message) = link(&archive()) {
        println!("cargo::error={message}");
    }
}

/// The path of the archive; a relative one counts from this package's folder.
fn archive() -> PathBuf {
    let folder = env::var_os("CARGO_MANIFEST_DIR").unwrap_or_default();
    let named = env::var_os("MORGANA_ARCHIVE").filter(|path| !path.is_empty());
    Path::new(&folder).join(named.unwrap_or_else(|| DEFAULT.into()))
}

/// Tells cargo to link the archive, and the tests where it stands.
fn link(archive: &Path) -> Result<(), String> {
    let shown = archive.display();
    println!("cargo::rerun-if-changed={shown}");
    if !archive.is_file() {
        return Err(format!(
            "the archive {shown} is missing: run `tools/build` first, or name an archive in MORGANA_ARCHIVE"
        ));
    }
    let path = |part: Option<&Path>| part.and_then(Path::to_str).map(str::to_owned);
    let folder = path(archive.parent());
    let name = path(archive.file_name().map(Path::new));
    let (Some(folder), Some(name)) = (folder, name) else {
        return Err(format!("the path of the archive {shown} is not UTF-8"));
    };
    println!("cargo::rustc-link-search=native={folder}");
    println!("cargo::rustc-link-lib=static:+verbatim={name}");
    println!("cargo::rustc-env=MORGANA_LINKED={shown}");
    // What the build script of a package that depends on this one gets as DEP_MORGANA_ARCHIVE.
    println!("cargo::metadata=archive={shown}");
    Ok(())
}
