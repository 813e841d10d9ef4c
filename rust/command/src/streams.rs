//! Files, standard input and standard output.
use crate::failure::{quoted, usage, Failure};
use crate::outline::in_line;
use std::fs::{self, File};
use std::io::{self, ErrorKind, IsTerminal, Read, Write};
use std::path::{Path, PathBuf};
use std::sync::atomic::{AtomicUsize, Ordering};
use std::sync::Mutex;

/// No plan file and no answer file is refused for what stands behind its first 64 KiB, so longer ones are not read to their end.
const BINARY_LIMIT: u64 = 1 << 20;
const TEXT_LIMIT: u64 = 1 << 26;

/// The files that were read, so that no output takes the place of one.
static READ: Mutex<Vec<PathBuf>> = Mutex::new(Vec::new());

/// The content of an input, and its name for messages.
pub struct Input {
    pub name: String,
    pub bytes: Vec<u8>,
}

fn is_standard(path: Option<&str>) -> bool {
    path.is_none_or(|path| path == "-")
}

/// Standard input can be read once only.
pub fn check_once(paths: &[Option<&str>]) -> Result<(), Failure> {
    match paths.iter().filter(|path| is_standard(**path)).count() {
        0 | 1 => Ok(()),
        _ => Err(usage("standard input is asked for twice; name a file for one of the two")),
    }
}

pub fn read_binary(path: Option<&str>) -> Result<Input, Failure> {
    read(path, BINARY_LIMIT)
}

pub fn read_text(path: Option<&str>) -> Result<Input, Failure> {
    let input = read(path, TEXT_LIMIT + 1)?;
    if input.bytes.len() as u64 > TEXT_LIMIT {
        return Err(usage(format!("{} is longer than 64 MiB", input.name)));
    }
    Ok(input)
}

fn read(path: Option<&str>, limit: u64) -> Result<Input, Failure> {
    let mut bytes = Vec::new();
    let (name, result) = match path {
        Some(path) if path != "-" => {
            remember(path);
            (path, File::open(path).and_then(|file| file.take(limit).read_to_end(&mut bytes)))
        }
        _ => ("standard input", io::stdin().lock().take(limit).read_to_end(&mut bytes)),
    };
    match result {
        Ok(_) => Ok(Input { name: in_line(name), bytes }),
        Err(error) => Err(usage(format!("cannot read {}: {error}", quoted(name)))),
    }
}

/// Notes that a file is an input, before it is read or later.
pub fn remember(path: &str) {
    if let (Ok(whole), Ok(mut read)) = (fs::canonicalize(path), READ.lock()) {
        read.push(whole);
    }
}

/// A file that was read, or will be, is not written over: it may be the only copy of a text.
pub fn check_output(path: Option<&str>) -> Result<(), Failure> {
    let Some(path) = path.filter(|path| !is_out(path)) else {
        return Ok(());
    };
    let is_input = match (fs::canonicalize(path), READ.lock()) {
        (Ok(whole), Ok(read)) => whole.is_file() && read.contains(&whole),
        _ => false,
    };
    match is_input {
        true => Err(usage(format!(
            "the output {} is also an input, which would be lost; choose another name",
            quoted(path)
        ))),
        false => Ok(()),
    }
}

/// Whether two names of outputs, which need not be there yet, are one place.
pub fn same_place(a: &str, b: &str) -> bool {
    let place = |path: &str| destination(Path::new(path)).ok();
    !is_out(a) && place(a).is_some() && place(a) == place(b)
}

/// Where a name leads, also where nothing is there yet. A link to nothing leads to what it names.
fn destination(path: &Path) -> io::Result<PathBuf> {
    let mut path = path.to_path_buf();
    // Linux follows no more links than this either.
    for _ in 0..40 {
        let (Some(name), Err(_)) = (path.file_name(), fs::canonicalize(&path)) else {
            break;
        };
        let folder = path.parent().filter(|folder| !folder.as_os_str().is_empty()).unwrap_or(Path::new("."));
        let folder = fs::canonicalize(folder)?;
        match fs::read_link(&path) {
            Ok(link) => path = folder.join(link),
            Err(_) => return Ok(folder.join(name)),
        }
    }
    fs::canonicalize(path)
}

/// Whether an output could be written now, for a call that works long before it writes: all of that would be lost. What is there stays.
pub fn check_writable(path: Option<&str>) -> Result<(), Failure> {
    let Some(path) = path.filter(|path| !is_out(path)) else {
        return Ok(());
    };
    try_to_write(Path::new(path)).map_err(|error| cannot_write(path, error))
}

fn try_to_write(path: &Path) -> io::Result<()> {
    match fs::metadata(path) {
        Ok(former) if former.is_dir() => return File::options().write(true).open(path).map(|_| ()),
        // A pipe would wait here for its reader.
        Ok(former) if !former.is_file() || path.starts_with("/dev") || path.starts_with("/proc") => return Ok(()),
        Ok(former) if former.permissions().readonly() => return Err(ErrorKind::PermissionDenied.into()),
        _ => {}
    }
    let (temporary, _) = temporary_beside(&destination(path)?)?;
    fs::remove_file(temporary)
}

/// Whether a name stands for standard output. Its names as a file are taken so too: what is behind them may be a file that others write to as well.
pub fn is_out(path: &str) -> bool {
    ["-", "/dev/stdout", "/dev/fd/1", "/proc/self/fd/1"].contains(&path)
}

/// Binary files disturb a terminal, so they go there only on request (`-o -`).
pub fn write_binary(path: Option<&str>, bytes: &[u8]) -> Result<(), Failure> {
    if path.is_none() && io::stdout().is_terminal() {
        return Err(usage("the result is a binary file; name it with -o FILE, or send it on with a pipe"));
    }
    write(path, bytes)
}

pub fn write(path: Option<&str>, bytes: &[u8]) -> Result<(), Failure> {
    check_output(path)?;
    let (name, result) = match path.filter(|path| !is_out(path)) {
        Some(path) => (path, replace(Path::new(path), bytes)),
        None => ("standard output", write_out(bytes)),
    };
    result.map_err(|error| cannot_write(name, error))
}

fn cannot_write(name: &str, error: io::Error) -> Failure {
    usage(format!("cannot write {}: {error}", quoted(name)))
}

/// Writes a temporary file in the same folder and gives it the name, so that a file is never left half written. A link stays a link; what is no
/// file, as a device or a pipe, is written to.
fn replace(path: &Path, bytes: &[u8]) -> io::Result<()> {
    let is_link = fs::symlink_metadata(path).is_ok_and(|link| link.is_symlink());
    let Some(target) = fs::canonicalize(path).ok().or((!is_link).then(|| path.to_path_buf())) else {
        // A link to nothing: what it names is made.
        return File::create(path)?.write_all(bytes);
    };
    let former = fs::metadata(&target).ok();
    match &former {
        Some(former) if !former.is_file() => return File::options().write(true).open(&target)?.write_all(bytes),
        // What is behind a name such as /dev/fd/3 may be written to by others, too.
        Some(_) if path.starts_with("/dev") || path.starts_with("/proc") => return File::options().append(true).open(&target)?.write_all(bytes),
        Some(former) if former.permissions().readonly() => return Err(ErrorKind::PermissionDenied.into()),
        _ => {}
    }
    let (temporary, mut file) = temporary_beside(&target)?;
    let written = former.map_or(Ok(()), |former| file.set_permissions(former.permissions()));
    let written = written.and_then(|()| file.write_all(bytes)).and_then(|()| file.sync_all());
    let renamed = written.and_then(|()| fs::rename(&temporary, &target));
    if renamed.is_err() {
        let _ = fs::remove_file(&temporary);
    }
    renamed
}

/// A new file in the folder of another one.
fn temporary_beside(target: &Path) -> io::Result<(PathBuf, File)> {
    static COUNT: AtomicUsize = AtomicUsize::new(0);
    loop {
        let count = COUNT.fetch_add(1, Ordering::Relaxed);
        let path = target.with_file_name(format!(".yeldaski-{}-{count}.part", std::process::id()));
        match File::create_new(&path) {
            Err(error) if error.kind() == ErrorKind::AlreadyExists && count < 1000 => {}
            result => return result.map(|file| (path, file)),
        }
    }
}

/// Whoever reads our output may stop early, as `head` does; that is no failure.
fn write_out(bytes: &[u8]) -> io::Result<()> {
    let mut out = io::stdout().lock();
    match out.write_all(bytes).and_then(|()| out.flush()) {
        Err(error) if error.kind() == ErrorKind::BrokenPipe => Ok(()),
        result => result,
    }
}

/// A message for the user. Nothing can be done where it cannot be written.
pub fn say(message: &str) {
    let _ = writeln!(io::stderr(), "{message}");
}
