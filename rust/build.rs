//! Finds the static library, and links it. Without it the crate is checked and documented, and a link fails.

use std::path::{Path, PathBuf};
use std::process::Command;
use std::{env, fs};

/// The folder of the library, set by whoever has not installed it.
const FOLDER_VARIABLE: &str = "HUNKRAVY_LIB_DIR";
const ARCHIVE: &str = "libhunkravy.a";

fn main() {
    for variable in [FOLDER_VARIABLE, "PKG_CONFIG", "PKG_CONFIG_PATH", "PKG_CONFIG_LIBDIR", "PKG_CONFIG_SYSROOT_DIR"] {
        println!("cargo::rerun-if-env-changed={variable}");
    }
    let target = env::var("TARGET").unwrap_or_default();
    if let Err(message) = check_target(&target) {
        println!("cargo::error={message}");
        return;
    }
    match folder() {
        Ok(folder) => {
            println!("cargo::rerun-if-changed={}", folder.join(ARCHIVE).display());
            println!("cargo::rustc-link-search=native={}", folder.display());
        }
        Err(message) => {
            // There is no such file, so the next build looks again.
            println!("cargo::rerun-if-changed=lib/{ARCHIVE}");
            println!("cargo::warning={message}");
        }
    }
    println!("cargo::rustc-link-lib=static=hunkravy");
}

/// Returns an error if there is no library for a target.
pub fn check_target(target: &str) -> Result<(), String> {
    let (processor, system) = target.split_once('-').unwrap_or((target, ""));
    let is_linux = ["unknown-linux-gnu", "unknown-linux-musl"].contains(&system);
    if is_linux && PROCESSORS.iter().any(|known| known.0 == processor) {
        return Ok(());
    }
    Err(format!("{ARCHIVE} is for Linux on x86_64 and aarch64, with glibc or musl, not for {target}"))
}

/// The processors of the targets, and the numbers that ELF has for them.
const PROCESSORS: [(&str, u16); 2] = [("x86_64", 62), ("aarch64", 183)];

/// The folder with the library: that of the variable if it is set, that of the package if it came with one, and otherwise the
/// one that pkg-config knows.
pub fn folder() -> Result<PathBuf, String> {
    if let Some(folder) = env::var_os(FOLDER_VARIABLE) {
        return with_archive(folder.into(), FOLDER_VARIABLE);
    }
    let own = PathBuf::from(env::var_os("CARGO_MANIFEST_DIR").unwrap_or_default()).join("lib");
    if own.join(ARCHIVE).is_file() {
        return with_archive(own, "the package");
    }
    let program = env::var_os("PKG_CONFIG").unwrap_or_else(|| "pkg-config".into());
    let found = installed(Path::new(&program)).map_err(|reason| {
        format!(
            "{ARCHIVE} was not found ({reason}). Set {FOLDER_VARIABLE} to the folder that has it, as lib of a release, \
             or PKG_CONFIG_PATH to the folder that has hunkravy.pc."
        )
    })?;
    with_archive(found, "pkg-config")
}

/// The folder that pkg-config knows.
fn installed(program: &Path) -> Result<PathBuf, String> {
    let output = Command::new(program)
        .args(["--variable=libdir", "hunkravy"])
        .output()
        .map_err(|error| format!("{}: {error}", program.display()))?;
    if !output.status.success() {
        return Err("pkg-config does not know hunkravy".to_owned());
    }
    let folder = String::from_utf8(output.stdout).map_err(|error| error.to_string())?;
    Ok(folder.trim_end().into())
}

/// The folder, if a library for the target's processor lies in it. Otherwise the error names who gave it.
fn with_archive(folder: PathBuf, source: &str) -> Result<PathBuf, String> {
    let shown = folder.display();
    let archive =
        fs::read(folder.join(ARCHIVE)).map_err(|_error| format!("{source} gives {shown}, which has no {ARCHIVE}"))?;
    // Cargo sets the variable. Without it the program is for this processor.
    let target = env::var("TARGET").unwrap_or_else(|_unset| env::consts::ARCH.to_owned());
    let (processor, _) = target.split_once('-').unwrap_or((&target, ""));
    if !PROCESSORS.contains(&(processor, machine(&archive))) {
        return Err(format!("{source} gives {shown}, whose {ARCHIVE} is not for {processor}"));
    }
    folder.canonicalize().map_err(|error| error.to_string())
}

/// The number of the processor of an archive's first object; 0 if it has none.
fn machine(archive: &[u8]) -> u16 {
    let object = archive.windows(4).position(|bytes| bytes == b"\x7fELF");
    let number = object.and_then(|start| archive.get(start + 18..start + 20));
    number.map_or(0, |bytes| u16::from_le_bytes([bytes[0], bytes[1]]))
}
