//! Links `libblink.a`: from the folder that `BLINK_LIB_DIR` names, or from `out/`, where `./libblink` at the top of the repository builds it, or
//! from `lib/` of an unpacked release. `BLINK_LIB_DIR` is an absolute path: a relative one would be this script's folder to cargo and another
//! to rustc, so it is refused. So is a library of another major version, by the `blink.pc` beside it, and a target that it isn't for. Without an
//! archive the crate can be checked and documented; what links it fails, as rustc says.

use std::path::{Path, PathBuf};
use std::{env, fs, process};

fn main() {
    println!("cargo:rerun-if-env-changed=BLINK_LIB_DIR");
    let folder = folder();
    let archive = folder.join("libblink.a");
    println!("cargo:rerun-if-changed={}", archive.display());
    if archive.exists() {
        compare_versions(&folder);
        compare_targets();
    } else {
        println!(
            "cargo:warning=no {}: to link a program, run ./libblink at the top of the repository, or name its folder by BLINK_LIB_DIR",
            archive.display()
        );
    }
    println!("cargo:rustc-link-search=native={}", folder.display());
    println!("cargo:rustc-link-lib=static=blink");
}

// Where the archive is, or would be.
fn folder() -> PathBuf {
    if let Some(folder) = env::var_os("BLINK_LIB_DIR").filter(|folder| !folder.is_empty()) {
        let folder = PathBuf::from(folder);
        if folder.is_relative() {
            fail(&format!("BLINK_LIB_DIR has to be an absolute path, and is {}", folder.display()));
        }
        return folder;
    }
    let top = Path::new(&env::var_os("CARGO_MANIFEST_DIR").expect("cargo sets CARGO_MANIFEST_DIR")).join("../..");
    let released = top.join("lib");
    if released.join("libblink.a").exists() {
        released
    } else {
        top.join("out")
    }
}

// Another major version may have other calls. A folder without a `blink.pc` says nothing of its version.
fn compare_versions(folder: &Path) {
    let ours = env::var("CARGO_PKG_VERSION").expect("cargo sets CARGO_PKG_VERSION");
    let said = ["blink.pc", "pkgconfig/blink.pc"].iter().find_map(|file| fs::read_to_string(folder.join(file)).ok()).unwrap_or_default();
    let Some(theirs) = said.lines().find_map(|line| line.strip_prefix("Version: ")) else { return };
    if theirs.split('.').next() != ours.split('.').next() {
        fail(&format!("the library in {} has version {theirs}, and the crate {ours}: take both from one release", folder.display()));
    }
}

// The archive's instructions are those of x86-64-v2.
fn compare_targets() {
    let [arch, os] = ["ARCH", "OS"].map(|it| env::var(format!("CARGO_CFG_TARGET_{it}")).expect("cargo tells the target"));
    if (arch.as_str(), os.as_str()) != ("x86_64", "linux") {
        fail(&format!("the library is for Linux on x86-64, and the target is {os} on {arch}"));
    }
}

fn fail(why: &str) -> ! {
    eprintln!("{why}");
    process::exit(1);
}
