// Tells cargo where the library's three archives are: in LINGUASTEL_LIB, or where hosts/library writes them in the repository, or where hosts/install puts
// them.
use std::env;
use std::path::{Path, PathBuf};

const ARCHIVES: [&str; 3] = ["liblinguastel.a", "liblinguastel_table.a", "liblinguastel_replay.a"];
const BUILT: &str = "../../target/staticlib";
const INSTALLED: &str = "../../../lib";

fn has_archives(folder: &Path) -> bool {
    ARCHIVES.iter().all(|archive| folder.join(archive).is_file())
}

fn main() {
    let here = PathBuf::from(env::var_os("CARGO_MANIFEST_DIR").unwrap_or_default());
    let built = here.join(BUILT);
    let installed = here.join(INSTALLED);
    let found = || if has_archives(&installed) && !has_archives(&built) { installed } else { built };
    let folder = env::var_os("LINGUASTEL_LIB").map_or_else(found, PathBuf::from);
    println!("cargo:rerun-if-env-changed=LINGUASTEL_LIB");
    for archive in ARCHIVES {
        println!("cargo:rerun-if-changed={}", folder.join(archive).display());
    }
    println!("cargo:rustc-link-search=native={}", folder.display());
}
