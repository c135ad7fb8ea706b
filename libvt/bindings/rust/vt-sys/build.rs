//! Finds libvt.a: in the folder that VT_LIB_DIR names, or where pkg-config has it. With VT_SHARED it is libvt.so.
use std::env;
use std::process::Command;

fn main() {
    println!("cargo:rerun-if-env-changed=VT_LIB_DIR");
    println!("cargo:rerun-if-env-changed=VT_SHARED");
    println!("cargo:rerun-if-env-changed=PKG_CONFIG_PATH");
    let folder = env::var("VT_LIB_DIR").ok().or_else(by_pkg_config);
    match folder {
        Some(folder) => {
            println!("cargo:rustc-link-search=native={folder}");
            println!("cargo:rerun-if-changed={folder}/libvt.a");
        }
        None => println!("cargo:warning=libvt wasn't found: set VT_LIB_DIR, or PKG_CONFIG_PATH for vt.pc"),
    }
    let kind = if env::var_os("VT_SHARED").is_some() { "dylib" } else { "static" };
    println!("cargo:rustc-link-lib={kind}=vt");
}

fn by_pkg_config() -> Option<String> {
    let ran = Command::new("pkg-config").args(["--variable=libdir", "vt"]).output().ok()?;
    let folder = String::from_utf8(ran.stdout).ok()?.trim().to_owned();
    (ran.status.success() && !folder.is_empty()).then_some(folder)
}
