//! Finds or makes the archive libmoorpontoon.a and has cargo link it.
//! MOORPONTOON_LIB names an archive; without it the archive is proved and built from the repository by `rt`.

use std::path::{Path, PathBuf};
use std::process::{exit, Command};
use std::{env, fs, io};

fn main() {
    println!("cargo:rerun-if-changed=build.rs");
    println!("cargo:rerun-if-env-changed=MOORPONTOON_LIB");
    let named = env::var_os("MOORPONTOON_LIB").filter(|path| !path.is_empty()).map(PathBuf::from);
    if let Some(path) = &named {
        println!("cargo:rerun-if-changed={}", path.display());
    }
    let archive = named.unwrap_or_else(prove);
    // Only a copy in OUT_DIR is linked: the archive named may have any name, and a proof from nothing removes the
    // folder that it is built in.
    let out = PathBuf::from(env::var_os("OUT_DIR").expect("cargo sets OUT_DIR"));
    if let Err(why) = fs::copy(&archive, out.join("libmoorpontoon.a")) {
        stop(&format!("the archive {} cannot be read: {why}", archive.display()));
    }
    println!("cargo:rustc-link-search=native={}", out.display());
    println!("cargo:rustc-link-lib=static=moorpontoon");
}

/// Proves the library at the repository's top and gives the archive's path. The crates below it are proved again only
/// where they have changed.
fn prove() -> PathBuf {
    let top = Path::new(".."); // cargo runs this in the crate's folder
    let target = |part: &str| env::var(format!("CARGO_CFG_TARGET_{part}")).unwrap_or_default();
    if target("ARCH") != "x86_64" || target("OS") != "linux" {
        stop("this build is for another machine");
    }
    if !top.join("crates.txt").is_file() {
        stop("this crate stands outside the repository, so there is nothing to prove");
    }
    println!("cargo:rerun-if-changed=../crates.txt");
    for part in ["src", "specs", "proofs"] {
        for name in ["model", "pagemap", "page", "lend", "tree", "map", "cursor", "moorpontoon"] {
            println!("cargo:rerun-if-changed=../crates/{name}/{part}");
        }
    }
    let library = top.join("crates/moorpontoon");
    match Command::new("rt").arg("lib").current_dir(&library).output() {
        Ok(run) if run.status.success() => library.join("out/libmoorpontoon.a"),
        Ok(run) => {
            eprint!("{}{}", String::from_utf8_lossy(&run.stdout), String::from_utf8_lossy(&run.stderr));
            stop("`rt lib` in crates/moorpontoon failed, as above")
        }
        Err(why) if why.kind() == io::ErrorKind::NotFound => stop("the command `rt` is not found"),
        Err(why) => stop(&format!("`rt` cannot be run: {why}")),
    }
}

/// Ends the build with one message.
fn stop(why: &str) -> ! {
    eprintln!(
        "moorpontoon: no archive to link: {why}. `rt lib` in crates/moorpontoon makes the archive, for x86-64 Linux \
         alone, on a machine that has the Rattle kit. Where it cannot, set MOORPONTOON_LIB to the path of an archive."
    );
    exit(1)
}
