//! Finds libribsaddle.a: in the folder that RIBSADDLE_LIB_DIR names, else in target/staticlib of the repository, else by
//! tools/library.sh, which proves and builds it there.

use std::path::{Path, PathBuf};
use std::process::Command;

const ARCHIVE: &str = "libribsaddle.a";

/// Says what is missing and stops the build.
fn missing(what: &str) -> ! {
    eprintln!("ribsaddle: {what}");
    std::process::exit(1);
}

fn named() -> Option<PathBuf> {
    let folder = PathBuf::from(std::env::var_os("RIBSADDLE_LIB_DIR")?);
    if !folder.join(ARCHIVE).is_file() {
        missing(&format!("RIBSADDLE_LIB_DIR names {}, and there is no {ARCHIVE} in it", folder.display()));
    }
    Some(folder)
}

/// Where tools/library.sh writes it, built now where it is not there yet.
fn built(repository: &Path) -> PathBuf {
    let folder = repository.join("target/staticlib");
    if folder.join(ARCHIVE).is_file() {
        return folder;
    }
    let wanted = format!(
        "there is no {ARCHIVE} in {}. Name its folder by the variable RIBSADDLE_LIB_DIR, or build it with `sh tools/library.sh` in {}",
        folder.display(),
        repository.display()
    );
    match Command::new("sh").arg("tools/library.sh").current_dir(repository).output() {
        Err(_) => missing(&format!("{wanted} (there is no `sh`)")),
        Ok(run) if !run.status.success() => {
            let said = [run.stdout, run.stderr].concat();
            missing(&format!("{wanted} (it failed:\n{})", String::from_utf8_lossy(&said)))
        }
        Ok(_) if !folder.join(ARCHIVE).is_file() => missing(&format!("{wanted} (it wrote none)")),
        Ok(_) => folder,
    }
}

fn main() {
    let of_target = |name: &str| std::env::var(format!("CARGO_CFG_TARGET_{name}")).unwrap_or_default();
    if (of_target("ARCH"), of_target("OS")) != ("x86_64".into(), "linux".into()) {
        missing("the library is built for x86-64 Linux, and this target is another");
    }
    let here = PathBuf::from(std::env::var_os("CARGO_MANIFEST_DIR").expect("cargo names the package's folder"));
    let folder = named().unwrap_or_else(|| built(&here.join("../..")));
    println!("cargo:rerun-if-env-changed=RIBSADDLE_LIB_DIR");
    println!("cargo:rerun-if-changed={}", folder.join(ARCHIVE).display());
    println!("cargo:rerun-if-changed=build.rs");
    println!("cargo:rustc-link-search=native={}", folder.display());
    println!("cargo:rustc-link-lib=static=ribsaddle");
}
