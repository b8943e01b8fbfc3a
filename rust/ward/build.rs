//! Links the static library that `rt lib` in crates/ward writes. The paths are relative to this folder, so that a copy of the repository, with what cargo
//! has built in it, links its own library and not that of the place where it was built. The tests link libprobes.a, too, which `rt lib` in crates/probes
//! writes.

fn main() {
    println!("cargo:rustc-link-search=native=../../crates/ward/out");
    println!("cargo:rustc-link-search=native=../../crates/probes/out");
    println!("cargo:rustc-link-lib=static=ward");
    // A file that is not there would make cargo build anew each time; the tool needs no probes.
    for library in ["../../crates/ward/out/libward.a", "../../crates/probes/out/libprobes.a"] {
        if std::path::Path::new(library).exists() {
            println!("cargo:rerun-if-changed={library}");
        }
    }
}
