//! Links the static library `libjj_core_c.a`: that of the folder `JJ_CORE_LIB`, else of the prefix that `pkg-config` knows.
use std::path::PathBuf;
use std::process::{exit, Command};

const FILE: &str = "libjj_core_c.a";

fn of_pkg_config() -> Option<PathBuf> {
    let printed = Command::new("pkg-config").args(["--variable=libdir", "jj_core"]).output().ok()?;
    let folder = String::from_utf8(printed.stdout).ok()?;
    (!folder.trim().is_empty()).then(|| PathBuf::from(folder.trim()))
}

// The folder that JJ_CORE_LIB names, or that of the file which it names.
fn of_environment() -> Option<PathBuf> {
    let named = PathBuf::from(std::env::var_os("JJ_CORE_LIB").filter(|it| !it.is_empty())?);
    Some(if named.is_file() { named.parent().map(PathBuf::from).unwrap_or_default() } else { named })
}

fn main() {
    for name in ["JJ_CORE_LIB", "PKG_CONFIG_PATH"] {
        println!("cargo:rerun-if-env-changed={name}");
    }
    let folder = of_environment().or_else(of_pkg_config);
    let Some(folder) = folder.clone().filter(|it| it.join(FILE).is_file()) else {
        let looked = folder.map_or("pkg-config knows no jj_core".into(), |it| format!("{} is not there", it.join(FILE).display()));
        eprintln!("jj-core-verified needs {FILE} of `./build --install PREFIX`: set JJ_CORE_LIB to the folder PREFIX/lib ({looked})");
        exit(1);
    };
    println!("cargo:rustc-link-search=native={}", folder.display());
    println!("cargo:rustc-link-lib=static=jj_core_c");
    println!("cargo:rerun-if-changed={}", folder.join(FILE).display());
}
