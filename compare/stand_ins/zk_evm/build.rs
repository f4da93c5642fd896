//! Writes the module tree that takes the Rust's sources where they are, unchanged.

use std::path::{Path, PathBuf};
use std::{env, fs};

/// Names the folder of the sources, from the project's root.
const VARIABLE: &str = "ERA_ZK_EVM_SRC";
const DEFAULT: &str = "../shared/docs/src/src";
const ROOT: &str = "../../..";

fn main() {
    println!("cargo:rerun-if-env-changed={VARIABLE}");
    let package = PathBuf::from(env::var_os("CARGO_MANIFEST_DIR").expect("set by cargo"));
    let out = PathBuf::from(env::var_os("OUT_DIR").expect("set by cargo"));
    let named = package.join(ROOT).join(env::var_os(VARIABLE).unwrap_or(DEFAULT.into()));
    let folder =
        fs::canonicalize(&named).unwrap_or_else(|error| panic!("{}: {error}; {VARIABLE} names the folder of the sources", named.display()));
    println!("cargo:rerun-if-changed={}", folder.display());
    println!("cargo:rustc-env=ERA_ZK_EVM_FOLDER={}", folder.display());
    fs::write(out.join("sources.rs"), modules(&folder)).expect("the build folder can be written");
}

fn modules(folder: &Path) -> String {
    let module = |path: &str| {
        let name = path
            .trim_end_matches("/mod.rs")
            .trim_end_matches(".rs")
            .rsplit('/')
            .next()
            .unwrap_or(path);
        format!("#[path = {:?}] pub mod {name};\n", folder.join(path))
    };
    let root = [
        "block_properties/mod.rs",
        "flags.rs",
        "tracing.rs",
        "vm_state/mod.rs",
        "witness_trace/mod.rs",
    ]
    .map(module)
    .concat();
    let parsing = module("opcodes/parsing.rs");
    let execution = ["add", "near_call", "ret", "sub"]
        .map(|name| module(&format!("opcodes/execution/{name}.rs")))
        .concat();
    format!(
        "{root}
pub mod opcodes {{
use super::*;
{parsing}
pub use self::parsing::*;
pub mod execution {{
use super::*;
use crate::vm_state::*;
use crate::zkevm_opcode_defs::decoding::VmEncodingMode;
{execution}
}}
}}
"
    )
}
