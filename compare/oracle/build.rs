//! Finds odht's four files, where ODHT_SRC points or else beside the repository, and has them compiled as they stand.
use std::path::{Path, PathBuf};
use std::{env, fs, process};

const FILES: [&str; 4] = ["fxhash.rs", "memory_layout.rs", "raw_table.rs", "swisstable_group_query/no_simd.rs"];

fn sources() -> PathBuf {
    match env::var_os("ODHT_SRC") {
        Some(given) => PathBuf::from(given),
        None => Path::new(&env::var_os("CARGO_MANIFEST_DIR").unwrap_or_default()).join("../../../shared/docs/src/src"),
    }
}

fn main() {
    println!("cargo:rerun-if-env-changed=ODHT_SRC");
    let at = sources();
    let mut found = Vec::new();
    for file in FILES {
        match fs::canonicalize(at.join(file)) {
            Ok(path) => found.push(path),
            Err(error) => {
                eprintln!("odht's {file} can't be read in {}: {error}. Set ODHT_SRC to the folder that has it.", at.display());
                process::exit(1);
            }
        }
    }
    let module = |name: &str, path: &Path| format!("#[path = {path:?}]\nmod {name};\n");
    let out = PathBuf::from(env::var_os("OUT_DIR").unwrap_or_default());
    let root = module("fxhash", &found[0]) + &module("memory_layout", &found[1]) + &module("raw_table", &found[2]);
    for (name, text) in [("root.rs", root), ("group.rs", module("no_simd", &found[3]))] {
        if let Err(error) = fs::write(out.join(name), text) {
            eprintln!("{name} can't be written: {error}");
            process::exit(1);
        }
    }
    for path in found {
        println!("cargo:rerun-if-changed={}", path.display());
    }
}
