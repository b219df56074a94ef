//! Whether the program is as new as its sources. `scripts/build-ncl` leaves the file `built` beside it, which names the sources and is as old
//! as the start of the build. Where that is missing, as where the program was copied to, nothing is asked.

use crate::output::tell;
use crate::FAILED;
use std::ffi::OsStr;
use std::fs;
use std::io::Read;
use std::os::unix::ffi::{OsStrExt, OsStringExt};
use std::os::unix::fs::MetadataExt;
use std::os::unix::process::CommandExt;
use std::path::{Path, PathBuf};
use std::process::Command;

/// Set where the program was just built, so that it is run whatever the times of its sources are.
const JUST_BUILT: &str = "NCL_JUST_BUILT";

/// Builds the program anew where a source is newer, and runs it in place of this one; answers the exit status where that fails.
pub fn ensure() -> Result<(), u8> {
    if std::env::var_os(JUST_BUILT).is_some() {
        return Ok(());
    }
    let Ok(program) = fs::read_link("/proc/self/exe") else { return Ok(()) };
    // The program is target/cli/release/ncl of its repository.
    let Some(root) = program.ancestors().nth(4) else { return Ok(()) };
    let Some(source) = newer(root) else { return Ok(()) };
    match Command::new(root.join("scripts/build-ncl")).arg(source).status() {
        Ok(status) if status.success() => {
            let error = Command::new(&program).args(std::env::args_os().skip(1)).env(JUST_BUILT, "1").exec();
            tell(&format!("{}: {error}", program.display()));
            Err(FAILED)
        }
        Ok(_) => Err(FAILED),
        Err(error) => {
            tell(&format!("it is older than its sources, and scripts/build-ncl cannot be run: {error}"));
            Err(FAILED)
        }
    }
}

/// A source that changed since the build began, or is gone.
fn newer(root: &Path) -> Option<PathBuf> {
    let mut file = fs::File::open(root.join("target/cli/built")).ok()?;
    let built = file.metadata().ok()?;
    let mut sources = String::new();
    file.read_to_string(&mut sources).ok()?;
    let when = (built.mtime(), built.mtime_nsec());
    // One buffer for all names: this is done at every start.
    let mut path = root.as_os_str().to_owned();
    path.push("/");
    let start = path.len();
    let mut path = path.into_vec();
    let changed = |source: &&str| {
        path.truncate(start);
        path.extend_from_slice(source.as_bytes());
        let data = fs::metadata(OsStr::from_bytes(&path));
        data.map_or(true, |data| (data.mtime(), data.mtime_nsec()) > when)
    };
    sources.lines().find(changed).map(PathBuf::from)
}
