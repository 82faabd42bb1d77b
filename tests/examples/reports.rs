//! Writes the folders in which the report program is run:
//!
//!     cargo run --release --example reports -- reports

use std::env;
use std::fs;
use std::io;
use std::path::Path;
use wigneld_tests::folders::files;

fn main() -> io::Result<()> {
    let target = env::args().nth(1).expect("the folder to write to");
    for (path, bytes) in files() {
        let path = Path::new(&target).join(path);
        fs::create_dir_all(path.parent().expect("every file is in a folder"))?;
        fs::write(path, bytes)?;
    }
    Ok(())
}
