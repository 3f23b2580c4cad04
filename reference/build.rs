//! Names the product's static library to the linker when the feature `linked` is on.

use std::env;
use std::path::Path;
use std::process::Command;

const CALLS: [&str; 7] = [
    "phrase_check",
    "phrase_report",
    "phrase_check_with",
    "phrase_report_with",
    "phrase_read",
    "phrase_write",
    "phrase_play",
];

fn main() {
    println!("cargo::rerun-if-env-changed=PHRASE_LIB_DIR");
    if env::var_os("CARGO_FEATURE_LINKED").is_none() {
        return;
    }
    // Without the folder the package still type-checks; only linking needs it.
    let Some(folder) = env::var_os("PHRASE_LIB_DIR") else {
        return;
    };
    let library = Path::new(&folder).join("libphrase.a");
    println!("cargo::rerun-if-changed={}", library.display());
    let out = env::var_os("OUT_DIR").expect("cargo gives build scripts an OUT_DIR");
    if let Err(failed) = isolate(&library, Path::new(&out)) {
        panic!("{}: {failed}", library.display());
    }
    println!(
        "cargo::rustc-link-search=native={}",
        Path::new(&out).display()
    );
    println!("cargo::rustc-link-lib=static=phrase_alone");
}

/// Makes libphrase_alone.a, in which only the seven calls are global: the library's own panic
/// handler or standard library must not meet this program's.
fn isolate(library: &Path, out: &Path) -> Result<(), String> {
    let object = out.join("phrase_alone.o");
    let archive = out.join("libphrase_alone.a");
    let wanted = CALLS.map(|call| format!("--undefined={call}"));
    let kept = CALLS.map(|call| format!("--keep-global-symbol={call}"));
    // Left from an earlier build, it would be added to instead of made.
    let _ = std::fs::remove_file(&archive);
    run(Command::new("ld")
        .arg("-r")
        .args(wanted)
        .arg(library)
        .arg("-o")
        .arg(&object))?;
    // Linkers keep one copy of this for all objects, so it has to stay visible to them.
    let shared = "--keep-global-symbol=DW.ref.rust_eh_personality";
    // Embedded bitcode, joined by `ld -r`, is no longer any that `ar` could read.
    let dropped = [".llvmbc", ".llvmcmd"].map(|name| format!("--remove-section={name}"));
    run(Command::new("objcopy")
        .args(kept)
        .arg(shared)
        .args(dropped)
        .arg(&object))?;
    run(Command::new("ar").arg("crs").arg(&archive).arg(&object))
}

fn run(command: &mut Command) -> Result<(), String> {
    match command.status() {
        Ok(status) if status.success() => Ok(()),
        Ok(status) => Err(format!("{command:?}: {status}")),
        Err(error) => Err(format!("{command:?}: {error}")),
    }
}
