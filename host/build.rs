//! Links the proved library, `target/staticlib/libtwin.a` of this repository; `DRAMULENZ_LIB_DIR`
//! names another folder that holds it. With `DRAMULENZ_NO_LINK` nothing is asked for, so that `cargo check`
//! and `cargo doc`, which link nothing, work everywhere: from here they look like any build.

use std::path::PathBuf;

fn main() {
    for name in ["DRAMULENZ_LIB_DIR", "DRAMULENZ_NO_LINK"] {
        println!("cargo:rerun-if-env-changed={name}");
    }
    if std::env::var_os("DRAMULENZ_NO_LINK").is_some() {
        return;
    }

    let target =
        ["ARCH", "OS"].map(|what| std::env::var(format!("CARGO_CFG_TARGET_{what}")).unwrap_or_default());
    if target != ["x86_64", "linux"] {
        let [machine, system] = target;
        fail(&format!("the library is code for x86_64 linux, and cannot be linked for {machine} {system}"));
    }

    let here = PathBuf::from(env!("CARGO_MANIFEST_DIR"));
    let folder = match std::env::var_os("DRAMULENZ_LIB_DIR") {
        Some(folder) => PathBuf::from(folder),
        None => here.join("../target/staticlib"),
    };
    let library = folder.join("libtwin.a");
    println!("cargo:rerun-if-changed={}", library.display());
    if !library.is_file() {
        fail(&format!("there is no {}: run `rt lib` in crates/twin_c, whose libtwin_c.a is this file", library.display()));
    }
    println!("cargo:rustc-link-search=native={}", folder.display());
    println!("cargo:rustc-link-lib=static=twin");
}

fn fail(why: &str) -> ! {
    eprintln!("{why}");
    std::process::exit(1);
}
