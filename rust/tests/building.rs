//! For what the crate is built: which targets, and without the standard library.

use std::fs::{self, Permissions};
use std::os::unix::fs::PermissionsExt;
use std::path::{Path, PathBuf};
use std::process::Command;

#[allow(dead_code)]
#[path = "../build.rs"]
mod build;

/// There is a library for four targets.
#[test]
fn targets() {
    for processor in ["x86_64", "aarch64"] {
        for library in ["gnu", "musl"] {
            assert_eq!(build::check_target(&format!("{processor}-unknown-linux-{library}")), Ok(()));
        }
    }
    for target in [
        "x86_64-unknown-linux-muslx32",
        "x86_64-unknown-linux-gnux32",
        "i686-unknown-linux-gnu",
        "aarch64-unknown-linux-gnu_ilp32",
        "x86_64-linux-android",
        "x86_64-apple-darwin",
        "x86_64-unknown-none",
        "",
    ] {
        let message = build::check_target(target).unwrap_err();
        assert!(message.contains(&format!("with glibc or musl, not for {target}")), "{message}");
    }
}

/// Compiles a file of this package with these arguments.
fn compile(source: &str, arguments: &[&str], output: &Path) {
    let mut rustc = Command::new(std::env::var_os("RUSTC").unwrap_or_else(|| "rustc".into()));
    rustc.arg(Path::new(env!("CARGO_MANIFEST_DIR")).join(source)).arg("--edition=2024").args(arguments);
    assert!(rustc.arg("-o").arg(output).status().unwrap().success());
}

/// The program `build.rs`, run as Cargo runs it, with a package of its own.
struct Script {
    program: PathBuf,
    package: PathBuf,
}

impl Script {
    fn new(name: &str) -> Self {
        let package = folder(name);
        let program = package.join("build");
        compile("build.rs", &[], &program);
        Script { program, package }
    }

    /// Runs it with these variables alone, and returns the lines that it prints.
    fn run(&self, variables: &[(&str, &Path)]) -> Vec<String> {
        let mut command = Command::new(&self.program);
        command.env_clear().env("CARGO_MANIFEST_DIR", &self.package);
        command.env("TARGET", "x86_64-unknown-linux-gnu");
        command.env("PATH", std::env::var_os("PATH").unwrap());
        command.env("PKG_CONFIG", "/nowhere/pkg-config");
        let output = command.envs(variables.iter().copied()).output().unwrap();
        String::from_utf8(output.stdout).unwrap().lines().map(str::to_owned).collect()
    }

    /// Checks that the folder is found with these variables, or none.
    fn finds(&self, variables: &[(&str, &Path)], folder: Option<&Path>) {
        let printed = self.run(variables);
        for variable in
            ["HUNKRAVY_LIB_DIR", "PKG_CONFIG", "PKG_CONFIG_PATH", "PKG_CONFIG_LIBDIR", "PKG_CONFIG_SYSROOT_DIR"]
        {
            assert!(printed.contains(&format!("cargo::rerun-if-env-changed={variable}")), "{printed:?}");
        }
        let found = printed.iter().filter(|line| line.contains("link-search"));
        let shown = folder.map_or("lib".to_owned(), |folder| folder.display().to_string());
        let expected = folder.map(|_| format!("cargo::rustc-link-search=native={shown}"));
        assert!(found.eq(&expected), "{printed:?}");
        assert!(printed.contains(&format!("cargo::rerun-if-changed={shown}/libhunkravy.a")), "{printed:?}");
        let is_warned = printed.iter().any(|text| text.starts_with("cargo::warning="));
        assert_eq!(is_warned, folder.is_none(), "{printed:?}");
    }

    /// A folder with an archive in it, for the processor that ELF has this number for.
    fn with_archive(&self, name: &str, machine: u8) -> PathBuf {
        let folder = self.package.join(name);
        fs::create_dir_all(&folder).unwrap();
        let object = b"!<arch>\n(its names)\x7fELF\x02\x01\x01\0\0\0\0\0\0\0\0\0\x01\0";
        fs::write(folder.join("libhunkravy.a"), [&object[..], &[machine, 0, 1]].concat()).unwrap();
        folder.canonicalize().unwrap()
    }
}

/// The numbers that ELF has for the processors.
const X86_64: u8 = 62;
const AARCH64: u8 = 183;

/// The library is that of the variable, then that of the package, then that of pkg-config; and whatever would change that is
/// looked at again.
#[test]
fn the_library_that_is_found() {
    let script = Script::new("found");
    let named = script.with_archive("named", X86_64);
    let installed = script.with_archive("installed", X86_64);
    let pkg_config = script.package.join("pkg-config");
    let question = "[ \"$*\" = '--variable=libdir hunkravy' ]";
    fs::write(&pkg_config, format!("#!/bin/sh\n{question} && echo {}\n", installed.display())).unwrap();
    fs::set_permissions(&pkg_config, Permissions::from_mode(0o755)).unwrap();
    let _ = fs::remove_dir_all(script.package.join("lib"));
    let empty = script.package.join("named/none");
    let (by_name, by_program) = (("HUNKRAVY_LIB_DIR", &*named), ("PKG_CONFIG", &*pkg_config));
    script.finds(&[], None);
    script.finds(&[by_program], Some(&installed));
    script.finds(&[by_name], Some(&named));
    // A name that is wrong is an error, and no other library is taken in its place.
    script.finds(&[("HUNKRAVY_LIB_DIR", &*empty), by_program], None);
    let own = script.with_archive("lib", X86_64);
    script.finds(&[by_program], Some(&own));
    script.finds(&[by_name, by_program], Some(&named));
    script.finds(&[("HUNKRAVY_LIB_DIR", &*empty), by_program], None);
}

/// A library for another processor is not linked, whoever gives it. A build for another target fails. Both say why.
#[test]
fn the_library_of_another_processor() {
    let script = Script::new("another-processor");
    for (target, machine, error) in [
        ("x86_64-unknown-linux-gnu", X86_64, None),
        ("x86_64-unknown-linux-musl", AARCH64, Some("is not for x86_64")),
        ("x86_64-unknown-linux-gnu", 0, Some("is not for x86_64")),
        ("aarch64-unknown-linux-gnu", X86_64, Some("is not for aarch64")),
        ("aarch64-unknown-linux-musl", AARCH64, None),
        ("x86_64-apple-darwin", X86_64, Some("cargo::error=")),
    ] {
        for variable in ["HUNKRAVY_LIB_DIR", "NONE"] {
            let named = script.with_archive("named", machine);
            script.with_archive("lib", machine);
            let printed = script.run(&[("TARGET", Path::new(target)), (variable, &named)]);
            let has = |text: &str| printed.iter().any(|line| line.contains(text));
            assert_eq!(has("link-search"), error.is_none(), "{printed:?}");
            assert!(error.is_none_or(has), "{printed:?}");
            let is_error = error == Some("cargo::error=");
            assert_eq!(has("cargo::error="), is_error, "{printed:?}");
            assert_eq!(has("cargo::rustc-link-lib"), !is_error, "{printed:?}");
        }
    }
}

const MANIFEST: &str = r#"
[package]
name = "NAME"
version = "0.0.0"
edition = "2024"

[lib]
path = "PROGRAM"
crate-type = ["lib", "staticlib"]

[dependencies]
DEPENDENCY

[profile.dev]
panic = "abort"

[workspace]
"#;

fn folder(name: &str) -> PathBuf {
    let folder = Path::new(env!("CARGO_TARGET_TMPDIR")).join(name);
    fs::create_dir_all(&folder).unwrap();
    folder
}

/// Runs a command of Cargo on a program of `tests/programs` over this crate, as this line of its manifest names it. Returns
/// whether it succeeds, and what Cargo has printed.
fn cargo(command: &str, program: &str, name: &str, dependency: &str) -> (bool, String) {
    let folder = folder(name);
    let package = env!("CARGO_MANIFEST_DIR");
    let program = format!("{package}/tests/programs/{program}.rs");
    let manifest = MANIFEST.replace("NAME", name).replace("PROGRAM", &program);
    let dependency = dependency.replace("PATH", &format!("path = \"{package}\""));
    fs::write(folder.join("Cargo.toml"), manifest.replace("DEPENDENCY", &dependency)).unwrap();
    let mut cargo = Command::new(env!("CARGO"));
    cargo.args([command, "--offline", "--message-format=short"]);
    cargo.arg("--target-dir").arg(self::folder("target"));
    let output = cargo.current_dir(&folder).output().unwrap();
    (output.status.success(), String::from_utf8_lossy(&output.stderr).into_owned())
}

/// Without its feature `std` the crate needs `core` and `alloc` alone. With it the same program has two panic handlers.
#[test]
fn without_the_standard_library() {
    let dependency = "hunkravy = { PATH, default-features = false }";
    let (is_built, printed) = cargo("build", "without_std", "without-std", dependency);
    assert!(is_built, "{printed}");
    let (is_built, printed) = cargo("check", "without_std", "with-std", "hunkravy = { PATH }");
    assert!(!is_built && printed.contains("panic_impl"), "{printed}");
}

/// Also in an optimized build, what overwrites a state or other bytes is the function of the library, which no compiler drops.
#[test]
fn drops_overwrite() {
    let assembly = folder("drops").join("hunkravy.s");
    compile("src/lib.rs", &["-O", "--crate-type=rlib", "--emit=asm", "--cfg=feature=\"std\""], &assembly);
    let text = fs::read_to_string(assembly).unwrap();
    let functions: Vec<&str> = text.split(".cfi_endproc").collect();
    for words in [["exports", "State", "drop"], ["exports", "Records", "drop"], ["_ZN", "exports", "4wipe"]] {
        let is_it = |line: &str| line.ends_with(':') && words.into_iter().all(|word| line.contains(word));
        let function = functions.iter().find(|text| text.lines().any(is_it));
        assert!(function.is_some_and(|text| text.contains("hunkravy_wipe")), "{words:?} {function:?}");
    }
}

/// Manifests that name the features of the crate `aegis`, and this crate in its place.
#[test]
fn manifests_of_the_crate_aegis() {
    let only = ", default-features = false, features = ";
    for (program, feature, is_right) in [
        ("with_ciphers", "pure-rust", true),
        ("with_ciphers", "std", true),
        ("with_raf", "raf", true),
        ("with_raf_core", "raf-core", true),
        // There the program gives the random bytes.
        ("with_raf", "raf-core", false),
        ("with_raf_core", "std", false),
    ] {
        let dependency = format!("aegis = {{ package = \"hunkravy\", PATH{only}[\"{feature}\"] }}");
        let (is_built, printed) = cargo("check", program, "of-aegis", &dependency);
        assert_eq!(is_built, is_right, "{dependency} {printed}");
        // The crate itself has no warning with these features.
        assert!(!is_built || !printed.contains("warning"), "{printed}");
        assert!(is_built || printed.contains("error[E"), "{printed}");
    }
}

/// Whoever drops a tag or a state is warned.
#[test]
fn results_that_must_be_used() {
    let dependency = "aegis = { package = \"hunkravy\", PATH }";
    let (is_built, printed) = cargo("check", "unused", "unused", dependency);
    assert!(is_built && printed.matches(": warning: unused").count() == 3, "{printed}");
}

/// The struct of a stream has as many words as that of the header.
#[test]
fn stream_struct_has_the_size_of_the_header() {
    let exports = include_str!("../src/exports.rs");
    let (_, words) = exports.split_once("OPAQUE_WORDS: usize = ").unwrap();
    let words = words.split(';').next().unwrap();
    assert!(include_str!("../../c/include/hunkravy_records.h").contains(&format!("uint64_t opaque[{words}]")));
}

/// Cargo links the library into a program once: two versions of the package are an error.
#[test]
fn the_library_is_linked_once() {
    assert!(include_str!("../Cargo.toml").contains("\nlinks = \"hunkravy\"\n"));
}

/// The page's samples are tests of the crate's documentation, so it has to have some.
#[test]
fn samples_of_the_page() {
    assert!(include_str!("../README.md").matches("```rust\nuse hunkravy::").count() >= 3);
}
