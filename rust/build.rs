//! Finds the engine's archive and has it linked.

use std::env;
use std::path::{Path, PathBuf};
use std::process::{exit, Command};

const FOLDER_VARIABLE: &str = "ZWAILMOOR_LIB_DIR";
const BEFORE_VARIABLE: &str = "ZWAILMOOR_BEFORE_DIR";
const ARCHIVE: &str = "libzwailmoor.a";

fn main() {
    let folder = folder();
    let archive = folder.join(ARCHIVE);
    println!("cargo:rerun-if-env-changed={FOLDER_VARIABLE}");
    println!("cargo:rerun-if-changed={}", archive.display());
    if !archive.is_file() {
        eprintln!(
            "{} is not there: run `rt lib` in crates/zwailmoor first, or set {FOLDER_VARIABLE} to the folder of {ARCHIVE}.",
            archive.display()
        );
        exit(1);
    }
    // For the tests, which link the C example.
    println!("cargo:rustc-env=ZWAILMOOR_ARCHIVE={}", archive.display());
    let folder = beside_before(&archive).unwrap_or(folder);
    println!("cargo:rustc-link-search=native={}", folder.display());
    println!("cargo:rustc-link-lib=static=zwailmoor");
    describe_for_benches();
}

fn folder() -> PathBuf {
    match env::var_os(FOLDER_VARIABLE) {
        Some(folder) => PathBuf::from(folder),
        None => {
            let package = env::var_os("CARGO_MANIFEST_DIR").expect("cargo names the package's folder");
            PathBuf::from(package).join("../crates/zwailmoor/out")
        }
    }
}

/// For the benchmarks alone: the compiler's version, and which peers `cc` can compile and link against. The library itself
/// links neither; the benchmark's own `#[link]` does.
fn describe_for_benches() {
    use std::process::Stdio;
    let variable = |name: &str| env::var(name).ok();
    let rustc = Command::new(variable("RUSTC").unwrap_or("rustc".into()))
        .arg("--version")
        .output();
    let version = rustc.map(|out| String::from_utf8_lossy(&out.stdout).trim().to_string());
    println!("cargo:rustc-env=BENCH_COMPILER={}", version.unwrap_or("not known".into()));
    // Where Debian notes what is installed, so that a peer that comes or goes is seen.
    let installed = "/var/lib/dpkg/status";
    if std::path::Path::new(installed).exists() {
        println!("cargo:rerun-if-changed={installed}");
    }
    println!("cargo:rerun-if-changed=build.rs");
    println!("cargo:rerun-if-env-changed=CC");
    let folder = PathBuf::from(variable("OUT_DIR").expect("cargo names the folder for what is built"));
    let cc = variable("CC").unwrap_or("cc".into());
    let peers = [
        ("roaring", "roaring/roaring.h", "roaring_bitmap_free(0)"),
        ("sqlite3", "sqlite3.h", "sqlite3_libversion_number()"),
    ];
    for (name, header, call) in peers {
        println!("cargo:rustc-check-cfg=cfg(peer_{name})");
        let source = folder.join(format!("{name}.c"));
        let program = format!("#include <{header}>\nint main(void) {{ (void)({call}, 0); return 0; }}\n");
        let mut probe = Command::new(&cc);
        probe.arg(&source).arg(format!("-l{name}")).arg("-o").arg(folder.join(name));
        probe.stdout(Stdio::null()).stderr(Stdio::null());
        if std::fs::write(&source, program).is_ok() && probe.status().is_ok_and(|status| status.success()) {
            println!("cargo:rustc-cfg=peer_{name}");
        }
    }
}

/// For the benchmarks alone: the engine of an earlier landing, to be timed beside this one. Both are copied, and the copies linked
/// into one program; answers their folder. Only the benchmark's own `#[link]` takes the earlier one.
fn beside_before(archive: &Path) -> Option<PathBuf> {
    println!("cargo:rustc-check-cfg=cfg(before)");
    println!("cargo:rerun-if-env-changed={BEFORE_VARIABLE}");
    let before = Path::new(&env::var_os(BEFORE_VARIABLE)?).join(ARCHIVE);
    println!("cargo:rerun-if-changed={}", before.display());
    let copies = PathBuf::from(env::var_os("OUT_DIR").expect("cargo names the folder for what is built"));
    let renamed = names(&before).and_then(|names| copy(&before, &copies.join("libzwailmoor_before.a"), &names));
    if let Err(why) = renamed.and_then(|()| copy(archive, &copies.join(ARCHIVE), "")) {
        eprintln!("{BEFORE_VARIABLE}: {} cannot be timed beside: {why}", before.display());
        exit(1);
    }
    println!("cargo:rustc-cfg=before");
    Some(copies)
}

/// The names that an archive defines for others.
fn names(archive: &Path) -> Result<String, String> {
    output(
        Command::new("nm")
            .args(["--defined-only", "--extern-only", "--format=just-symbols"])
            .arg(archive),
    )
}

/// Copies an archive. These of its names get `before_` in front, so that two can be linked into one program. Each function begins a
/// page: where the linker puts them else, an engine was timed at nine tenths of its own copy.
fn copy(from: &Path, to: &Path, names: &str) -> Result<(), String> {
    let mut objcopy = Command::new("objcopy");
    objcopy.arg("--set-section-alignment=.text.*=4096");
    // A line that ends with a colon names a file of the archive.
    for name in names.lines().filter(|line| !line.is_empty() && !line.ends_with(':')) {
        objcopy.arg(format!("--redefine-sym={name}=before_{name}"));
    }
    output(objcopy.arg(from).arg(to)).map(|_| ())
}

/// What a command prints, or what is wrong.
fn output(command: &mut Command) -> Result<String, String> {
    let ran = command
        .output()
        .map_err(|why| format!("{}: {why}", command.get_program().display()))?;
    if !ran.status.success() {
        return Err(String::from_utf8_lossy(&ran.stderr).trim().to_string());
    }
    Ok(String::from_utf8_lossy(&ran.stdout).into_owned())
}
