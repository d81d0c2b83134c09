//! Finds the library for C, compares its version with the crate's, and links it.
use std::path::{Path, PathBuf};
use std::process::Command;
use std::{env, fs};

const ARCHIVE: &str = "libropey.a";

/// The folder of an archive for processors with the instructions of x86-64-v3, beside the other.
const WIDE: &str = "x86-64-v3";

/// Its instructions beyond x86-64-v2, any of which the archive may have.
const WIDE_FEATURES: [&str; 7] = ["avx2", "bmi1", "bmi2", "f16c", "fma", "lzcnt", "movbe"];

const ADVICE: &str =
    "A release has it in the crate's folder. In the library's repository scripts/build_c_library.sh builds it, and \
    scripts/install_c_library.sh PREFIX installs it; then add PREFIX/lib/pkgconfig to PKG_CONFIG_PATH. Or set \
    ROPEY_LIB_DIR to the folder of the archive.";

/// Returns the version of the library that this crate is for: the part of the crate's version after
/// the +.
fn wanted() -> &'static str {
    env!("CARGO_PKG_VERSION").rsplit('+').next().unwrap_or_default()
}

/// Returns the folders to search: the crate's own, which has the archive in a release; the
/// repository's build folder, also if Cargo has unpacked the crate's package below the crate; an
/// installation.
fn folders() -> impl Iterator<Item = PathBuf> {
    let own = Path::new(env!("CARGO_MANIFEST_DIR"));
    let built = own.ancestors().map(|folder| folder.join("crates/ropey_c/out"));
    [own.to_path_buf()].into_iter().chain(built).chain(installed())
}

/// Returns the folder of an installed library from `pkg-config`.
fn installed() -> Option<PathBuf> {
    let output = Command::new("pkg-config").args(["--variable=libdir", "ropey"]).output().ok()?;
    let folder = String::from_utf8(output.stdout).ok().filter(|_| output.status.success())?;
    Some(PathBuf::from(folder.trim()))
}

/// Returns the folder of the archive: `ROPEY_LIB_DIR`, or else the first folder that has one.
fn found() -> PathBuf {
    let Some(named) = env::var_os("ROPEY_LIB_DIR").map(PathBuf::from) else {
        let first = folders().find(|folder| folder.join(ARCHIVE).is_file());
        return first.unwrap_or_else(|| panic!("{ARCHIVE} is not found. {ADVICE}"));
    };
    assert!(named.join(ARCHIVE).is_file(), "ROPEY_LIB_DIR is {}, which has no {ARCHIVE}. {ADVICE}", named.display());
    named
}

/// Returns the folder of the archive for the processor that the crate is compiled for: of two, they
/// must be of the same sources.
fn for_target(folder: PathBuf) -> PathBuf {
    let wide = folder.join(WIDE);
    let features = env::var("CARGO_CFG_TARGET_FEATURE").unwrap_or_default();
    let has = |name: &&str| features.split(',').any(|feature| feature == *name);
    let sources = |folder: &Path| fs::read_to_string(folder.join("libropey.sources")).ok();
    let is_current = wide.join(ARCHIVE).is_file() && sources(&wide) == sources(&folder);
    if is_current && WIDE_FEATURES.iter().all(has) {
        wide
    } else {
        folder
    }
}

/// Panics if the archive has another version than the crate: its calls and structs may differ.
fn check_version(folder: &Path) {
    let archive = folder.join(ARCHIVE);
    let sources = fs::read_to_string(folder.join("libropey.sources")).unwrap_or_default();
    let version = sources.split_once(' ').map_or("of an unknown version", |(version, _)| version);
    let wanted = wanted();
    assert!(version == wanted, "{} is {version}, and this crate is for {wanted}. {ADVICE}", archive.display());
}

fn main() {
    println!("cargo:rerun-if-env-changed=ROPEY_LIB_DIR");
    println!("cargo:rerun-if-env-changed=PKG_CONFIG_PATH");
    if env::var_os("DOCS_RS").is_some() {
        return;
    }
    let of_target = |name: &str| env::var(format!("CARGO_CFG_TARGET_{name}")).unwrap_or_default();
    let (arch, system) = (of_target("ARCH"), of_target("OS"));
    let is_served = arch == "x86_64" && system == "linux";
    assert!(is_served, "ropey: the library is for Linux on x86-64 alone, and this build is for {system} on {arch}");
    let folder = for_target(found());
    check_version(&folder);
    println!("cargo:rerun-if-changed={}", folder.join(ARCHIVE).display());
    println!("cargo:rustc-link-search=native={}", folder.display());
    println!("cargo:rustc-link-lib=static=ropey");
}
