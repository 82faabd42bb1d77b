//! Links the engine's four archives, only when the feature `engine` asks for them.

use std::env;

fn main() {
    println!("cargo:rerun-if-env-changed=WIGNELD_LIB");
    if env::var_os("CARGO_FEATURE_ENGINE").is_none() {
        return;
    }
    let folder = env::var("WIGNELD_LIB").expect(
        "the feature `engine` needs WIGNELD_LIB, the folder of libwigneld.a, libwigneld_office.a, libwigneld_desk.a and libprobe.a",
    );
    // As arguments the archives come after the standard library, so that a panic of the tests stays
    // the tests' own even where an archive brings a panic runtime along. The archives may carry the
    // same functions; the first copy serves.
    println!("cargo:rustc-link-arg=-Wl,--allow-multiple-definition");
    for name in ["libprobe.a", "libwigneld_desk.a", "libwigneld_office.a", "libwigneld.a"] {
        println!("cargo:rerun-if-changed={folder}/{name}");
        println!("cargo:rustc-link-arg={folder}/{name}");
    }
}
