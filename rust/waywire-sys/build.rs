//! Finds libwaywire in the first of these places that has it:
//!
//! 1. the folder that `WAYWIRE_LIB_DIR` names, or `lib` below the folder that `WAYWIRE_DIR` names: the prefix of an
//!    installation, or the repository's `out/c`. If one of them is set, the other places do not count;
//! 2. this package's folder `lib`, where `make` puts the archive, and which `cargo package` packs;
//! 3. the folder that pkg-config names.
//!
//! A place has the library if the archive is there, which is linked, or else the shared library. With the feature
//! `static`, only the archive counts. `WAYWIRE_STATIC` overrides the feature: with `1` only the archive counts, with
//! `0` only the shared library.
//!
//! The library's version must be compatible with this package's: the same major number and, below 1, the same minor
//! number. Without the library, a program can be checked and documented, and linking fails.

use std::env;
use std::fs;
use std::path::{Path, PathBuf};
use std::process::Command;

fn main() {
    for variable in
        ["WAYWIRE_DIR", "WAYWIRE_LIB_DIR", "WAYWIRE_STATIC", "PKG_CONFIG_PATH", "DOCS_RS"]
    {
        println!("cargo:rerun-if-env-changed={variable}");
    }
    let kinds = kinds();
    // docs.rs has no library.
    let places = if env::var_os("DOCS_RS").is_some() { Vec::new() } else { places() };
    let found = places.iter().find_map(|it| Some((it, it.has(kinds)?)));
    match found {
        Some((place, kind)) => place.link(kind),
        None => {
            missing(kinds, &places);
            // So that the linker says what is missing.
            println!("cargo:rustc-link-lib={}=waywire", kinds[0].name);
        }
    }
    let headers = found.map(|it| it.0).or(places.first()).map(|it| it.headers.as_path());
    let headers = headers.unwrap_or(Path::new("")).display();
    // For the test that compares the declarations with the headers, and for dependents with code in C.
    println!("cargo:rustc-env=WAYWIRE_INCLUDE={headers}");
    println!("cargo:include={headers}");
}

/// A kind of library, by rustc's name, and its file.
struct Kind {
    name: &'static str,
    file: &'static str,
}

const KINDS: [Kind; 2] =
    [Kind { name: "static", file: "libwaywire.a" }, Kind { name: "dylib", file: "libwaywire.so" }];

/// The kinds that count, the better one first.
fn kinds() -> &'static [Kind] {
    let is_feature = env::var_os("CARGO_FEATURE_STATIC").is_some();
    match env::var("WAYWIRE_STATIC").unwrap_or_default().as_str() {
        "1" => &KINDS[..1],
        "0" => &KINDS[1..],
        "" if is_feature => &KINDS[..1],
        "" => &KINDS,
        other => panic!("WAYWIRE_STATIC is {other:?}, and not 0 or 1"),
    }
}

/// A folder where the library may be, and that of its headers.
struct Place {
    libraries: PathBuf,
    headers: PathBuf,
}

fn places() -> Vec<Place> {
    let set = |variable: &str| env::var_os(variable).map(PathBuf::from);
    if let Some(libraries) = set("WAYWIRE_LIB_DIR") {
        return vec![Place { headers: libraries.join("../include"), libraries }];
    }
    if let Some(folder) = set("WAYWIRE_DIR") {
        return vec![Place::below(folder)];
    }
    let package = set("CARGO_MANIFEST_DIR").unwrap_or_default();
    let own = Place { libraries: package.join("lib"), headers: package.join("../../include") };
    let told = |variable| Some(PathBuf::from(asked(variable)?));
    let by_pkg_config = told("libdir")
        .zip(told("includedir"))
        .map(|(libraries, headers)| Place { libraries, headers });
    [Some(own), by_pkg_config].into_iter().flatten().collect()
}

impl Place {
    /// The library in an installation; if the folder has the archive itself, it is that of the repository.
    fn below(folder: PathBuf) -> Place {
        if folder.join("libwaywire.a").exists() {
            let headers = folder.join("../../include");
            return Place { libraries: folder, headers };
        }
        let [libraries, headers] = ["lib", "include"].map(|it| folder.join(it));
        Place { libraries, headers }
    }

    /// The best of these kinds that is there.
    fn has(&self, kinds: &'static [Kind]) -> Option<&'static Kind> {
        kinds.iter().find(|it| self.libraries.join(it.file).exists())
    }

    fn link(&self, kind: &Kind) {
        is_compatible(&self.headers.join("waywire-version.h"));
        println!("cargo:rustc-link-search=native={}", self.libraries.display());
        println!("cargo:rustc-link-lib={}=waywire", kind.name);
        println!("cargo:rerun-if-changed={}", self.libraries.join(kind.file).display());
    }
}

/// The value of a variable of the library's, from pkg-config.
fn asked(variable: &str) -> Option<String> {
    let said =
        Command::new("pkg-config").args(["--variable", variable, "waywire"]).output().ok()?;
    said.status.success().then(|| String::from_utf8_lossy(&said.stdout).trim().to_owned())
}

/// Warns that no place has the library, and looks again at the next build.
fn missing(kinds: &[Kind], places: &[Place]) {
    let files: Vec<&str> = kinds.iter().map(|it| it.file).collect();
    let folders: Vec<String> = places.iter().map(|it| it.libraries.display().to_string()).collect();
    println!(
        "cargo:warning=libwaywire is not found, and nothing can be linked: no {} in {}; set WAYWIRE_DIR to the \
        folder where it is installed (an absolute path), or PKG_CONFIG_PATH for pkg-config",
        files.join(" or "),
        folders.join(" or ")
    );
    for place in places {
        println!("cargo:rerun-if-changed={}", place.libraries.display());
    }
}

/// Ends the build if the header's version is not compatible with this package's.
fn is_compatible(header: &Path) {
    // The archive in a packed package has its version, and no header.
    let Ok(text) = fs::read_to_string(header) else { return };
    println!("cargo:rerun-if-changed={}", header.display());
    let number = |name: &str| {
        let found = text.lines().find_map(|it| it.strip_prefix(&format!("#define {name} ")));
        found.map(str::trim).unwrap_or_default().to_owned()
    };
    let (major, minor) = (number("WAYWIRE_VERSION_MAJOR"), number("WAYWIRE_VERSION_MINOR"));
    let same_minor = major != "0" || minor == env!("CARGO_PKG_VERSION_MINOR");
    if major != env!("CARGO_PKG_VERSION_MAJOR") || !same_minor {
        let package = env!("CARGO_PKG_VERSION");
        panic!(
            "libwaywire {major}.{minor} is not compatible with the package waywire-sys {package}"
        );
    }
}
