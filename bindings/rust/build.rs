//! Compiles `mscp.c`, the library as one file of C99, by the C compiler; or takes `libmscp` by `pkg-config`, if
//! `MSCP_SYSTEM` is set.

use std::env;
use std::ffi::OsStr;
use std::path::PathBuf;
use std::process::{exit, Command};

fn main() {
    for name in ["MSCP_SYSTEM", "PKG_CONFIG", "PKG_CONFIG_PATH"] {
        println!("cargo:rerun-if-env-changed={name}");
    }
    println!("cargo:rerun-if-changed=build.rs");
    tell_of_errors();
    if env::var_os("MSCP_SYSTEM").map_or(false, |it| !it.is_empty() && it != *"0") {
        take_from_system();
    } else {
        compile();
    }
}

/// `core` has the trait of errors since Rust 1.81: from then on `has_core_error` is set.
fn tell_of_errors() {
    let version = output(Command::new(told("RUSTC")).arg("--version"));
    let minor = version.split('.').nth(1).and_then(|it| it.parse().ok()).unwrap_or(0);
    if minor >= 80 {
        println!("cargo:rustc-check-cfg=cfg(has_core_error)");
    }
    if minor >= 81 {
        println!("cargo:rustc-cfg=has_core_error");
    }
}

/// Ends the build, and says why.
fn fail(why: &str) -> ! {
    eprintln!("mscp: {why}");
    exit(1)
}

/// The value of a variable that cargo sets.
fn told(name: &str) -> String {
    env::var(name).unwrap_or_else(|_| fail(&format!("cargo hasn't set {name}")))
}

/// What a command prints.
fn output(command: &mut Command) -> String {
    match command.output() {
        Ok(it) if it.status.success() => String::from_utf8_lossy(&it.stdout).into_owned(),
        Ok(it) => fail(&format!("{command:?}: {}", String::from_utf8_lossy(&it.stderr))),
        Err(error) => fail(&format!("{command:?}: {error}")),
    }
}

/// The tool for the target: of `CC_x86_64-unknown-linux-gnu`, `CC_x86_64_unknown_linux_gnu`, `TARGET_CC` and `CC` the
/// first that is set, as words; or else its usual name.
fn tool(kind: &str, usual: &str) -> Command {
    let target = told("TARGET");
    let names = [
        format!("{kind}_{target}"),
        format!("{kind}_{}", target.replace('-', "_")),
        format!("TARGET_{kind}"),
        kind.into(),
    ];
    names.iter().for_each(|name| println!("cargo:rerun-if-env-changed={name}"));
    let is_other = target != told("HOST");
    match names.iter().find_map(|name| env::var(name).ok()) {
        Some(words) => {
            let mut words = words.split_whitespace();
            let mut command = Command::new(words.next().unwrap_or(usual));
            command.args(words);
            command
        }
        None if target.ends_with("-msvc") => fail(&format!(
            "Microsoft's compiler isn't served: build for a target that ends with -gnu, or set {kind}_{} to a tool that takes \
             GCC's words",
            target.replace('-', "_")
        )),
        None if is_other => fail(&format!("set {kind}_{} to what makes code for {target}", target.replace('-', "_"))),
        None => Command::new(usual),
    }
}

/// The folders of `mscp.c` and `mscp.h`: `c`, in which a release has copies of both, or else those of the project around.
fn folders() -> (PathBuf, PathBuf) {
    let top = PathBuf::from(told("CARGO_MANIFEST_DIR"));
    match top.join("c") {
        own if own.exists() => (own.clone(), own),
        _ => (top.join("../../portable"), top.join("../../include")),
    }
}

fn compile() {
    let (sources, headers) = folders();
    let out = PathBuf::from(told("OUT_DIR"));
    let (source, object, archive) = (sources.join("mscp.c"), out.join("mscp.o"), out.join("libmscp.a"));
    for file in [&source, &headers.join("mscp.h")] {
        println!("cargo:rerun-if-changed={}", file.display());
    }
    // Without -O the calls would take more of the stack than mscp.h says.
    let level = if matches!(told("OPT_LEVEL").as_str(), "s" | "z") { "-Os" } else { "-O2" };
    let mut compiler = tool("CC", "cc");
    compiler.args(["-std=c99", level, "-fPIC", "-ffunction-sections", "-c"]);
    output(compiler.arg("-I").arg(&headers).arg(&source).arg("-o").arg(&object));
    let _ = std::fs::remove_file(&archive); // else what it had before would stay in it
    output(tool("AR", "ar").args([OsStr::new("crs"), archive.as_os_str(), object.as_os_str()]));
    println!("cargo:rustc-link-search=native={}", out.display());
    println!("cargo:rustc-link-lib=static=mscp");
    println!("cargo:include={}", headers.display());
}

/// Only of the same version, since structs and numbers may be others in another one. The archive is taken if it is there,
/// so that a program wants nothing of the machine on which it runs.
fn take_from_system() {
    let name = env::var("PKG_CONFIG").unwrap_or_else(|_| "pkg-config".into());
    let wanted = format!("mscp = {}", told("CARGO_PKG_VERSION"));
    let tell = |what| output(Command::new(&name).args(["--print-errors", what, &wanted]));
    let folder = PathBuf::from(tell("--variable=libdir").trim());
    if folder.join("libmscp.a").exists() {
        println!("cargo:rustc-link-search=native={}", folder.display());
        println!("cargo:rustc-link-lib=static=mscp");
        return;
    }
    for word in tell("--libs").split_whitespace() {
        if let Some(folder) = word.strip_prefix("-L") {
            println!("cargo:rustc-link-search=native={folder}");
        } else if let Some(library) = word.strip_prefix("-l") {
            println!("cargo:rustc-link-lib={library}");
        }
    }
}
