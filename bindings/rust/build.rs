//! Compiles the node in C and links it: `c/nd.c` of a package, or `dist/nd.c` of the repository. If `ND_LIB` names a folder, links the `libnd_c.a` that is there instead.
//!
//! The C compiler is the one that `CC_target` names, where `target` is cargo's name with `_` for `-`, else that of `CC`, else, if the target is this
//! machine, `cc`. The archiver is that of `AR_target`, of `AR`, or `ar`. The compiler is passed `CFLAGS_target` or `CFLAGS` behind `-O2`.

use std::path::{Path, PathBuf};
use std::process::Command;
use std::{env, fs};

const SOURCES: [&str; 3] = ["nd.c", "nd.h", "nd_hear.h"];

fn main() {
    println!("cargo:rerun-if-env-changed=ND_LIB");
    let folder = match env::var_os("ND_LIB") {
        Some(folder) => copied(Path::new(&folder)),
        None => compiled(),
    };
    println!("cargo:rustc-link-search=native={}", folder.display());
    println!("cargo:rustc-link-lib=static=nd_c");
}

/// Returns the folder for what this program makes.
fn out() -> PathBuf {
    PathBuf::from(env::var_os("OUT_DIR").unwrap())
}

/// Copies the archive of a folder, so that nothing else is linked if an older file takes its place later, which cargo doesn't notice. Returns the
/// folder of the copy.
fn copied(folder: &Path) -> PathBuf {
    let archive = folder.join("libnd_c.a");
    println!("cargo:rerun-if-changed={}", archive.display());
    let made = out();
    if let Err(error) = fs::copy(&archive, made.join("libnd_c.a")) {
        panic!("ND_LIB: {}: {error}", archive.display());
    }
    made
}

/// Returns the folder of the node in C: that of the crate if it is a package, else that of the repository.
fn sources() -> PathBuf {
    let own = Path::new(env!("CARGO_MANIFEST_DIR")).join("c");
    if own.exists() {
        own
    } else {
        Path::new(env!("CARGO_MANIFEST_DIR")).join("../../dist")
    }
}

/// Compiles the node without memory functions of its own: those of the feature `memory`, or of the program, are linked. Returns the archive's folder.
fn compiled() -> PathBuf {
    let (sources, made) = (sources(), out());
    let (object, archive) = (made.join("nd.o"), made.join("libnd_c.a"));
    for name in SOURCES {
        println!("cargo:rerun-if-changed={}", sources.join(name).display());
    }
    let mut compiler = tool("CC", "cc");
    compiler.args(["-O2", "-DND_OWN_MEMORY"]);
    if env::var_os("CARGO_CFG_WINDOWS").is_none() {
        compiler.arg("-fPIC");
    }
    compiler.args(words("CFLAGS").unwrap_or_default());
    run(compiler.arg("-c").arg(sources.join("nd.c")).arg("-o").arg(&object));
    // An archive that is there from an earlier build could have other members.
    if archive.exists() {
        fs::remove_file(&archive).unwrap();
    }
    run(tool("AR", "ar").arg("crs").arg(&archive).arg(&object));
    made
}

/// Returns the words of a variable, of the one for this target if it is there.
fn words(name: &str) -> Option<Vec<String>> {
    let of_target = format!("{name}_{}", env::var("TARGET").unwrap().replace('-', "_"));
    let found = [of_target.as_str(), name].into_iter().find_map(|name| {
        println!("cargo:rerun-if-env-changed={name}");
        env::var(name).ok()
    });
    found.map(|text| text.split_whitespace().map(String::from).collect::<Vec<_>>()).filter(|words| !words.is_empty())
}

/// Returns the tool that a variable names, or the usual one of this machine.
fn tool(name: &str, usual: &str) -> Command {
    let named = words(name).unwrap_or_else(|| {
        let target = env::var("TARGET").unwrap();
        if target != env::var("HOST").unwrap() {
            panic!("name the tool in place of `{usual}` for {target} by {name}_{}", target.replace('-', "_"));
        }
        vec![usual.into()]
    });
    let mut command = Command::new(&named[0]);
    command.args(&named[1..]);
    command
}

/// Runs a tool, and ends the build if it fails.
fn run(command: &mut Command) {
    match command.status() {
        Ok(status) if status.success() => {}
        Ok(status) => panic!("{command:?}: {status}"),
        Err(error) => panic!("{command:?}: {error}: the crate compiles the node in C; CC names the compiler, AR the archiver"),
    }
}
