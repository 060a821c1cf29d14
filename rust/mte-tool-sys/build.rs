//! Says where the library is: `MTE_TOOL_LIBRARY` names its file, `libmte_tool.a` or `libmte_tool.so`, or the folder that has it; else a
//! packed crate has it; else pkg-config knows it; else, in a clone, scripts/library builds it; else the linker finds it.
use std::path::{Path, PathBuf};
use std::process::Command;

fn main() {
    println!("cargo:rerun-if-changed=build.rs");
    println!("cargo:rerun-if-env-changed=MTE_TOOL_LIBRARY");
    println!("cargo:rerun-if-env-changed=PKG_CONFIG_PATH");
    let named = named_library().or_else(of_the_crate);
    let known = named.as_deref().map(folder_of).or_else(from_pkg_config);
    let built = if known.is_none() { of_the_clone() } else { None };
    let is_static = named.as_deref().or(built.as_deref()).map_or(false, has_archive);
    if let Some(folder) = known.or(built) {
        println!("cargo:rustc-link-search=native={}", folder.display());
    }
    let kind = if is_static { "static" } else { "dylib" };
    println!("cargo:rustc-link-lib={kind}=mte_tool");
}

/// What `MTE_TOOL_LIBRARY` names. Where no library is there the build ends here: a linker would find another one, or say less.
fn named_library() -> Option<PathBuf> {
    let named = std::env::var_os("MTE_TOOL_LIBRARY").map(PathBuf::from).filter(|named| !named.as_os_str().is_empty())?;
    if !named.is_file() && !["libmte_tool.a", "libmte_tool.so"].iter().any(|name| named.join(name).exists()) {
        eprintln!("MTE_TOOL_LIBRARY={}: no libmte_tool.a or libmte_tool.so is there", named.display());
        std::process::exit(1);
    }
    Some(named)
}

fn of_the_crate() -> Option<PathBuf> {
    let machine = std::env::var_os("CARGO_CFG_TARGET_ARCH")?;
    let folder = Path::new(&std::env::var_os("CARGO_MANIFEST_DIR")?).join("lib").join(machine);
    has_archive(&folder).then_some(folder)
}

fn of_the_clone() -> Option<PathBuf> {
    let script = Path::new(&std::env::var_os("CARGO_MANIFEST_DIR")?).join("../../scripts/library");
    let made = Path::new(&std::env::var_os("OUT_DIR")?).join("library");
    let is_built = script.is_file() && Command::new(script).arg(&made).status().map_or(false, |status| status.success());
    is_built.then(|| made.join("lib"))
}

fn folder_of(named: &Path) -> PathBuf {
    let is_file = !named.is_dir();
    named.parent().filter(|_| is_file).unwrap_or(named).to_path_buf()
}

fn has_archive(named: &Path) -> bool {
    named.is_dir() && named.join("libmte_tool.a").exists() || named.extension().map_or(false, |ending| ending == "a")
}

fn from_pkg_config() -> Option<PathBuf> {
    let command = std::env::var_os("PKG_CONFIG").unwrap_or_else(|| "pkg-config".into());
    let said = Command::new(command).args(["--variable=libdir", "mte_tool"]).output().ok()?;
    let folder = String::from_utf8(said.stdout).ok()?.trim().to_string();
    let plain = folder.replace('\\', ""); // which it writes before a quote or a space
    let folder = if Path::new(&folder).is_dir() { folder } else { plain };
    (said.status.success() && !folder.is_empty()).then(|| folder.into())
}
