//! Writing: to standard output by one checked writer, and to files whole or not at all.

use crate::failure::{plain, shown, Failure, Outcome};
use crate::input::Identity;
use crate::streams;
use std::fs::{self, File, OpenOptions};
use std::io::{self, ErrorKind, IsTerminal, Write};
use std::os::unix::fs::MetadataExt;
use std::path::{Path, PathBuf};
use std::time::SystemTime;

/// What became of standard output: nobody reads it any more, or it takes no more bytes.
fn lost(error: &io::Error) -> Failure {
    match error.kind() {
        ErrorKind::BrokenPipe => Failure(None),
        _ => Failure::says(format!("standard output: {}", plain(error))),
    }
}

/// Lets a write that goes beyond a limit on the size of files fail, in place of ending the program, which would leave files half written.
pub fn live_on_a_full_file() {
    // SAFETY: no handler is set, so nothing runs when the signal comes; it only changes what the system does then.
    unsafe { libc::signal(libc::SIGXFSZ, libc::SIG_IGN) };
}

/// Puts bytes on standard output, all of them.
pub fn put(bytes: &[u8]) -> Outcome<()> {
    if streams::closed(1) && !bytes.is_empty() {
        return Err(Failure::says("standard output: is closed"));
    }
    let mut out = io::stdout().lock();
    out.write_all(bytes).and_then(|()| out.flush()).map_err(|error| lost(&error))
}

/// Puts words on standard error. Where they cannot be read there is nobody to tell.
pub fn tell(words: &str) {
    tell_as_it_is(&format!("ncl: {words}\n"));
}

/// The same without the command's name before them.
pub fn tell_as_it_is(words: &str) {
    let _ = io::stderr().lock().write_all(words.as_bytes());
}

/// Colours, where standard output is a terminal that takes them and NO_COLOR does not forbid it.
#[derive(Clone, Copy)]
pub struct Paint(bool);

impl Paint {
    pub const NONE: Paint = Paint(false);

    pub fn of_output() -> Paint {
        let forbidden = std::env::var_os("NO_COLOR").is_some_and(|value| !value.is_empty());
        let dumb = std::env::var_os("TERM").is_none_or(|value| value == "dumb");
        Paint(on_terminal() && !forbidden && !dumb)
    }

    fn paint(self, code: &str, words: &str) -> String {
        if self.0 {
            format!("\x1b[{code}m{words}\x1b[0m")
        } else {
            words.to_string()
        }
    }

    pub fn good(self, words: &str) -> String {
        self.paint("32", words)
    }

    pub fn bad(self, words: &str) -> String {
        self.paint("31", words)
    }

    /// The words before a line's content.
    pub fn label(self, words: &str) -> String {
        self.paint("1", words)
    }
}

/// Whether a person reads standard output.
pub fn on_terminal() -> bool {
    io::stdout().is_terminal()
}

/// A file to be written.
struct Target {
    /// What the user called it.
    given: PathBuf,
    /// Where it is, links followed.
    path: PathBuf,
    /// What stands there now, if it is a plain file.
    old: Option<fs::Metadata>,
    /// Written to as it is, at its end: a device, a pipe, or an open file by the name of its descriptor.
    device: bool,
    /// Begins the names of what is written beside it, which nothing else has.
    mark: String,
}

impl Target {
    fn of((k, given): (usize, &Path)) -> Outcome<Target> {
        let Led { path, stream, descriptor } = Led::from(given).map_err(|error| Failure::of(given, &error))?;
        if let Some(stream) = stream {
            let what = ["standard input", "standard output takes the verdict", "standard error takes messages"][stream];
            return Err(Failure::says(format!("'{}': {what}; name a file to be written", given.display())));
        }
        let since = SystemTime::now().duration_since(SystemTime::UNIX_EPOCH).unwrap_or_default();
        let mark = format!(".ncl-{}-{}-{k}", std::process::id(), since.as_nanos());
        let mut target = Target { given: given.into(), path, old: None, device: descriptor, mark };
        // The name as it is given: the system knows where the links in /proc lead, and their words may name no file.
        match fs::metadata(given) {
            Ok(data) if data.is_dir() => return Err(Failure::says(format!("{}: is a folder", shown(given)))),
            Ok(data) if data.is_file() => target.old = Some(data),
            Ok(_) => target.device = true,
            Err(error) if error.kind() == ErrorKind::NotFound && !descriptor => {}
            Err(error) => return Err(Failure::of(given, &error)),
        }
        Ok(target)
    }

    /// The folder, as the system names it, and the name in it: two targets that have both alike are one file.
    fn place(&self) -> Outcome<(PathBuf, PathBuf)> {
        let folder = fs::canonicalize(folder_of(&self.path)).map_err(|error| Failure::of(&self.given, &error))?;
        Ok((folder, self.path.file_name().unwrap_or_default().into()))
    }

    fn identity(&self) -> Option<Identity> {
        self.old.as_ref().map(|data| (data.dev(), data.ino()))
    }

    /// Whether what stands there is not to be written: nobody may, or the user may not.
    fn protected(&self) -> bool {
        let barred = || OpenOptions::new().write(true).open(&self.path).is_err_and(|error| error.kind() == ErrorKind::PermissionDenied);
        !self.device && self.old.as_ref().is_some_and(|old| old.mode() & 0o222 == 0 || barred())
    }

    /// Why this file is not written: it is one of those read, or protected, where --force is not given; or a standard stream goes there.
    fn refused(&self, inputs: &[Identity], force: bool) -> Option<String> {
        let name = shown(&self.given);
        if let Some(stream) = self.identity().and_then(streams::going_to) {
            return Some(format!("{name}: is where {stream} goes; name another file"));
        }
        if !force && self.identity().is_some_and(|identity| inputs.contains(&identity)) {
            return Some(format!("{name}: is one of the files read; --force writes over it"));
        }
        (!force && self.protected()).then(|| format!("{name}: is write-protected; --force writes over it"))
    }

    /// A name beside the file, that of the new or the old content.
    fn beside(&self, age: &str) -> PathBuf {
        folder_of(&self.path).join(format!("{}.{age}", self.mark))
    }

    /// Writes the new content beside the file.
    fn fill(&self, bytes: &[u8]) -> Outcome<()> {
        let file = OpenOptions::new().write(true).create_new(true).open(self.beside("new")).map_err(|error| self.barred(&error))?;
        keep(file, self.old.as_ref(), bytes).map_err(|error| Failure::of(&self.given, &error))
    }

    /// Why there can be no file beside it: the fault is the folder's.
    fn barred(&self, error: &io::Error) -> Failure {
        match error.kind() {
            ErrorKind::PermissionDenied | ErrorKind::ReadOnlyFilesystem => {
                let folder = shown(folder_of(&self.path));
                Failure::says(format!("{folder}: no file may be written into this folder: {}", plain(error)))
            }
            _ => Failure::of(&self.given, error),
        }
    }
}

/// The folder in which a file stands.
fn folder_of(path: &Path) -> &Path {
    path.parent().filter(|folder| !folder.as_os_str().is_empty()).unwrap_or(Path::new("."))
}

/// Where a name leads.
struct Led {
    /// With its links followed, also where it leads to a file that is not there yet.
    path: PathBuf,
    /// The standard stream that it names: '-', or a name of the descriptor.
    stream: Option<usize>,
    /// Whether it leads through the name of a descriptor, as /dev/fd/3 does: that is an open file, not a place for a new one.
    descriptor: bool,
}

impl Led {
    fn from(given: &Path) -> io::Result<Led> {
        let mut path = given.to_path_buf();
        if given.as_os_str() == "-" {
            return Ok(Led { path, stream: Some(1), descriptor: false });
        }
        for _ in 0..40 {
            // /dev/stdout and /dev/fd are links into /proc.
            let folder = fs::canonicalize(folder_of(&path)).unwrap_or_default();
            if folder.starts_with("/proc") && folder.ends_with("fd") {
                let own = fs::canonicalize("/proc/self").is_ok_and(|own| folder.starts_with(own));
                let stream = (0..3).find(|stream| own && path.file_name().is_some_and(|name| name == stream.to_string().as_str()));
                return Ok(Led { path, stream, descriptor: true });
            }
            match fs::read_link(&path) {
                Ok(to) => path = folder_of(&path).join(to),
                Err(_) => return Ok(Led { path, stream: None, descriptor: false }),
            }
        }
        Err(io::Error::other("too many links"))
    }
}

/// Whether a file to be written is standard output, by '-' or a name of its descriptor.
pub fn is_standard_output(given: &Path) -> bool {
    Led::from(given).is_ok_and(|led| led.stream == Some(1))
}

/// Removes files when it goes, whatever happened.
struct Leftovers(Vec<PathBuf>);

impl Drop for Leftovers {
    fn drop(&mut self) {
        for path in &self.0 {
            let _ = fs::remove_file(path);
        }
    }
}

/// Writes files, all of them whole or none: each is written beside its place first, and takes it once all are there. A file that was read or
/// is protected is not written over unless that is asked for, and two names of one file are refused.
pub fn write_files(files: &[(&Path, &[u8])], inputs: &[Identity], force: bool) -> Outcome<()> {
    let targets: Vec<Target> = files.iter().map(|file| file.0).enumerate().map(Target::of).collect::<Outcome<_>>()?;
    for (k, target) in targets.iter().enumerate() {
        if let Some(words) = target.refused(inputs, force) {
            return Err(Failure::says(words));
        }
        for other in &targets[..k] {
            let linked = target.identity().is_some() && target.identity() == other.identity();
            if linked || target.place()? == other.place()? {
                let names = [other, target].map(|target| shown(&target.given));
                return Err(Failure::says(format!("{}: are one file; two are to be written", names.join(" and "))));
            }
        }
    }
    let mut leftovers = Leftovers(Vec::new());
    for (target, file) in targets.iter().zip(files).filter(|(target, _)| !target.device) {
        leftovers.0.push(target.beside("new"));
        target.fill(file.1)?;
    }
    for (target, file) in targets.iter().zip(files).filter(|(target, _)| target.device) {
        let device = OpenOptions::new().append(true).open(&target.given);
        device.and_then(|mut device| device.write_all(file.1)).map_err(|error| Failure::of(&target.given, &error))?;
    }
    take_places(&targets, &mut leftovers)
}

/// Writes a new file and makes sure that its bytes are kept. It gets the rights of the file that it will replace, and its owner where it may.
fn keep(mut file: File, old: Option<&fs::Metadata>, bytes: &[u8]) -> io::Result<()> {
    if let Some(old) = old {
        let _ = std::os::unix::fs::fchown(&file, Some(old.uid()), Some(old.gid()));
        file.set_permissions(old.permissions())?;
    }
    file.write_all(bytes)?;
    file.sync_all()
}

/// Lets each new file take its place. Where one cannot, those before it get their old content back.
fn take_places(targets: &[Target], leftovers: &mut Leftovers) -> Outcome<()> {
    let plain: Vec<&Target> = targets.iter().filter(|target| !target.device).collect();
    for (k, target) in plain.iter().enumerate() {
        // The last one needs no way back: taking its place is one step.
        let keep = k + 1 < plain.len() && target.old.is_some();
        let saved = if keep { save(target, leftovers) } else { Ok(()) };
        if let Err(error) = saved.and_then(|()| fs::rename(target.beside("new"), &target.path)) {
            for done in &plain[..k] {
                let _ = match done.old {
                    Some(_) => fs::rename(done.beside("old"), &done.path),
                    None => fs::remove_file(&done.path),
                };
            }
            return Err(Failure::of(&target.given, &error));
        }
    }
    Ok(())
}

/// A second name for what stands at a target now, or a copy where the file system has no second names.
fn save(target: &Target, leftovers: &mut Leftovers) -> io::Result<()> {
    let old = target.beside("old");
    leftovers.0.push(old.clone());
    fs::hard_link(&target.path, &old).or_else(|_| {
        let mut from = File::open(&target.path)?;
        let mut to = OpenOptions::new().write(true).create_new(true).open(&old)?;
        io::copy(&mut from, &mut to).and_then(|_| to.sync_all())
    })
}
