//! Makes the Rust under test part of this crate without a change to it, and links the library.
use std::path::{Path, PathBuf};
use std::{env, fs};

/// The first line of XmlVersion in lib.rs. What stands above it declares modules that are not here.
const CUT: &str = "/// Version of XML standard\n";

fn main() {
    let here = PathBuf::from(env::var("CARGO_MANIFEST_DIR").unwrap());
    let source = folder("ORACLE_SOURCE", &here.join("../../shared/docs/src")).join("src");
    let library = folder("GOVLEZNA_LIB_DIR", &here.join("../target/staticlib"));
    include_source(&source);
    link(&library);
    if env::var_os("CARGO_FEATURE_FUZZ").is_some() {
        link_fuzzer();
    }
}

/// The folder that the variable names, or else the usual one.
fn folder(variable: &str, usual: &Path) -> PathBuf {
    println!("cargo:rerun-if-env-changed={variable}");
    let folder = env::var_os(variable).map_or(usual.to_path_buf(), PathBuf::from);
    match folder.canonicalize() {
        Ok(folder) => folder,
        Err(error) => panic!(
            "{} ({variable} names another folder): {error}",
            folder.display()
        ),
    }
}

/// Stands after escape.rs, whose `_escape` is private: what it writes with the bytes that Canonical XML 1.0, 2.3, replaces.
const BY_SET: &str = r#"
pub fn with_the_bytes_of_c14n_attribute(raw: &str) -> Cow<'_, str> {
    _escape(raw, |ch| matches!(ch, b'&' | b'<' | b'"' | b'\t' | b'\n' | b'\r'))
}

pub fn with_the_bytes_of_c14n_text(raw: &str) -> Cow<'_, str> {
    _escape(raw, |ch| matches!(ch, b'&' | b'<' | b'>' | b'\r'))
}
"#;

/// escape.rs becomes a module with two functions after it, utils.rs one where it stands; XmlVersion is cut out of lib.rs.
fn include_source(source: &Path) {
    for file in ["escape.rs", "utils.rs", "lib.rs"] {
        println!("cargo:rerun-if-changed={}", source.join(file).display());
    }
    let out = PathBuf::from(env::var("OUT_DIR").unwrap());
    let escape = fs::read_to_string(source.join("escape.rs")).expect("escape.rs");
    fs::write(out.join("escape.rs"), escape + BY_SET).unwrap();
    let modules = format!(
        "#[path = {:?}]\npub mod escape;\n#[path = {:?}]\npub mod utils;\n",
        out.join("escape.rs"),
        source.join("utils.rs"),
    );
    let lib = fs::read_to_string(source.join("lib.rs")).expect("lib.rs of the Rust under test");
    let (above, below) = lib.split_once(CUT).expect("the first line of XmlVersion");
    assert!(
        !above.contains("XmlVersion") && !below.contains(CUT),
        "XmlVersion stands in one place"
    );
    assert!(below.contains("pub enum XmlVersion {") && below.contains("impl XmlVersion {"));
    fs::write(out.join("source.rs"), modules + CUT + below).unwrap();
}

fn link(library: &Path) {
    let archive = library.join("libgovlezna.a");
    println!("cargo:rerun-if-changed={}", archive.display());
    println!("cargo:rustc-link-search=native={}", library.display());
    println!("cargo:rustc-link-lib=static=govlezna");
}

/// libFuzzer's runtime without a `main`, of LLVM's folder of runtimes.
fn link_fuzzer() {
    println!("cargo:rerun-if-env-changed=FUZZER_LIB_DIR");
    let folder = env::var("FUZZER_LIB_DIR").expect("FUZZER_LIB_DIR: ../scripts/fuzz sets it");
    println!("cargo:rustc-link-search=native={folder}");
    println!("cargo:rustc-link-lib=static=clang_rt.fuzzer_no_main-x86_64");
    println!("cargo:rustc-link-lib=dylib=stdc++");
}
