//! Links the three static libraries that `rt lib` writes, each from its crate's out/, or all from BENCH_STATICLIB.
use std::env;
use std::path::PathBuf;

fn main() {
    let own = env::var("CARGO_MANIFEST_DIR").expect("cargo sets the folder of the package");
    let given = env::var("BENCH_STATICLIB");
    println!("cargo:rerun-if-env-changed=BENCH_STATICLIB");
    for name in ["bench_listing", "bench_opaque", "bench_staged"] {
        let folder = match &given {
            Ok(given) => PathBuf::from(given),
            Err(_) => PathBuf::from(&own).join(format!("../crates/{name}/out")),
        };
        println!("cargo:rustc-link-search=native={}", folder.display());
        println!("cargo:rerun-if-changed={}", folder.join(format!("lib{name}.a")).display());
        println!("cargo:rustc-link-lib=static={name}");
    }
}
