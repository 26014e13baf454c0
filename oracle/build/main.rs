//! Lays out the module tree that is compiled: the stand-ins of `src/standins/`, and among them, at
//! the paths that they have in Shuttle, the two source files, byte for byte as `docs/src` has them.
//!
//! `ORACLE_FAULT=name` applies `faults/name.patch` to this copy. Such a build says so in every output.

mod sha256;
mod unified_diff;

use std::path::{Path, PathBuf};
use std::{env, fs, process};

/// A source file that is compiled unchanged.
struct Source {
    /// Below `docs/src/shuttle-engine/src/` and in the copied tree alike.
    path: &'static str,
    sha256: &'static str,
}

/// The texts of commit 855ae5d92a.
const UNCHANGED: [Source; 2] = [
    Source {
        path: "future/batch_semaphore.rs",
        sha256: "cea35426776988563bf31823993db40c6aaee9a9ba554d698ed2cce2e43a5c72",
    },
    Source {
        path: "runtime/task/clock.rs",
        sha256: "4bdff3f460c155f1b1110207f4e5db8e9a9cc49f0d03cf9d19d66f2430f987dc",
    },
];

const SOURCE_ROOT: &str = "../docs/src/shuttle-engine/src";

/// Stands after the unchanged text, in the same module, because only a module inside it may read the
/// semaphore's private fields. (`include!` would keep the two apart, but it refuses a text that
/// begins with a `//!` comment.)
const AFTER_SEMAPHORE: &str = "\npub mod reading;\n";

fn main() {
    println!("cargo::rerun-if-changed=build");
    println!("cargo::rerun-if-changed=src/standins");
    println!("cargo::rerun-if-changed=faults");
    println!("cargo::rerun-if-env-changed=ORACLE_FAULT");
    let out = PathBuf::from(env::var_os("OUT_DIR").expect("cargo sets OUT_DIR"));
    if let Err(message) = lay_out(&out) {
        println!("cargo::error={message}");
        process::exit(1);
    }
}

fn lay_out(out: &Path) -> Result<(), String> {
    let tree = out.join("engine");
    let _ = fs::remove_dir_all(&tree);
    copy_tree(Path::new("src/standins"), &tree)?;
    for source in &UNCHANGED {
        write(&tree.join(source.path), &unchanged_text(source)?)?;
    }
    apply_fault(&tree)?;
    let semaphore = tree.join(UNCHANGED[0].path);
    let mut text = read(&semaphore)?;
    text.extend(AFTER_SEMAPHORE.bytes());
    write(&semaphore, &text)?;
    write(&out.join("engine_module.rs"), b"pub mod engine;\n")
}

/// The text of `docs/src`, or a refusal to build if it is not the text that this oracle speaks for.
fn unchanged_text(source: &Source) -> Result<Vec<u8>, String> {
    let path = Path::new(SOURCE_ROOT).join(source.path);
    println!("cargo::rerun-if-changed={}", path.display());
    let text = read(&path)?;
    let found = sha256::hex(&text);
    if found != source.sha256 {
        return Err(format!(
            "{} is not the text of commit 855ae5d92a: its SHA-256 is {found}, and {} is expected",
            path.display(),
            source.sha256
        ));
    }
    Ok(text)
}

fn apply_fault(tree: &Path) -> Result<(), String> {
    let name = env::var("ORACLE_FAULT").unwrap_or_default();
    if !name.is_empty() {
        let path = Path::new("faults").join(format!("{name}.patch"));
        let patch = String::from_utf8(read(&path)?).map_err(|e| format!("{}: {e}", path.display()))?;
        unified_diff::apply(&patch, tree).map_err(|e| format!("{}: {e}", path.display()))?;
        println!("cargo::warning=built with the deliberate fault {name}");
    }
    println!("cargo::rustc-env=ORACLE_FAULT_NAME={name}");
    Ok(())
}

fn copy_tree(from: &Path, to: &Path) -> Result<(), String> {
    fs::create_dir_all(to).map_err(|e| format!("cannot make {}: {e}", to.display()))?;
    let entries = fs::read_dir(from).map_err(|e| format!("cannot list {}: {e}", from.display()))?;
    for entry in entries {
        let path = entry.map_err(|e| e.to_string())?.path();
        let target = to.join(path.file_name().expect("a listed entry has a name"));
        if path.is_dir() {
            copy_tree(&path, &target)?;
        } else {
            write(&target, &read(&path)?)?;
        }
    }
    Ok(())
}

fn read(path: &Path) -> Result<Vec<u8>, String> {
    fs::read(path).map_err(|e| format!("cannot read {}: {e}", path.display()))
}

fn write(path: &Path, text: &[u8]) -> Result<(), String> {
    fs::write(path, text).map_err(|e| format!("cannot write {}: {e}", path.display()))
}
