//! The files that a command reads and writes; `-` is standard input or output. Errors name them, except those of standard output.

use crate::Result;
use std::fmt::Display;
use std::fs::{self, File};
use std::io::{self, BufRead, BufReader, ErrorKind, Read, Write};
use std::path::{self, Path, PathBuf};

/// Whether a path stands for standard input or output, whose file, if it has one, isn't replaced.
pub fn is_stream(path: &Path) -> bool {
    matches!(path.to_str(), Some("-" | "/dev/stdin" | "/dev/stdout"))
}

/// A path, or that of the stream for which `-` stands.
pub fn path_of<'a>(path: &'a Path, stream: &'a str) -> &'a Path {
    if is_stream(path) { Path::new(stream) } else { path }
}

/// The name of a source in messages.
pub fn name(source: &Path) -> String {
    if is_stream(source) { "standard input".into() } else { source.display().to_string() }
}

/// A result whose error names the source.
pub fn named<T>(source: &Path, result: std::result::Result<T, impl Display>) -> Result<T> {
    result.map_err(|fault| format!("{}: {fault}", name(source)).into())
}

pub fn open(source: &Path) -> io::Result<Box<dyn BufRead>> {
    Ok(if is_stream(source) { Box::new(io::stdin().lock()) } else { Box::new(BufReader::new(File::open(source)?)) })
}

pub fn read(source: &Path) -> Result<Vec<u8>> {
    let mut bytes = Vec::new();
    named(source, open(source).and_then(|mut it| it.read_to_end(&mut bytes)))?;
    Ok(bytes)
}

/// Whether two paths are equal or lead to one file: spelled differently, through links, or as `/dev/stdin`.
pub fn are_one(a: &Path, b: &Path) -> bool {
    let lead_to_one = || resolved(a) == resolved(b) || inode(a).is_some_and(|it| inode(b) == Some(it));
    a == b || !is_device(a) && !is_device(b) && lead_to_one()
}

/// Whether there is something other than a file: a device, a pipe or a folder.
fn is_device(path: &Path) -> bool {
    fs::metadata(path).is_ok_and(|it| !it.is_file())
}

/// What hard links have in common.
#[cfg(unix)]
fn inode(path: &Path) -> Option<(u64, u64)> {
    use std::os::unix::fs::MetadataExt;
    fs::metadata(path).ok().map(|it| (it.dev(), it.ino()))
}

#[cfg(not(unix))]
fn inode(_: &Path) -> Option<(u64, u64)> {
    None
}

/// The path without links. The file needn't exist.
fn resolved(path: &Path) -> PathBuf {
    let in_folder = || {
        let path = path::absolute(path).ok()?;
        Some(path.parent()?.canonicalize().ok()?.join(path.file_name()?))
    };
    path.canonicalize().ok().or_else(in_folder).unwrap_or_else(|| path.into())
}

/// Replaces the content of all targets, or, if this fails, of none.
pub fn replace(targets: &[(&Path, Vec<u8>)]) -> Result<()> {
    let (streams, files): (Vec<_>, Vec<_>) = targets.iter().partition(|(target, _)| is_stream(target) || is_device(target));
    let written = files.into_iter().map(|(target, bytes)| named(target, Written::beside(target, bytes)));
    let written = written.collect::<Result<Vec<_>>>()?;
    for (target, bytes) in streams {
        if is_stream(target) {
            let mut out = io::stdout().lock();
            out.write_all(bytes).and_then(|()| out.flush())?;
        } else {
            named(target, File::options().write(true).open(target).and_then(|mut it| it.write_all(bytes)))?;
        }
    }
    put_in_place(&written)
}

/// A new file beside its target. Dropped before it is renamed, it is removed.
struct Written {
    target: PathBuf,
    new: PathBuf,
    /// Where the target is moved while another is replaced too.
    old: PathBuf,
}

impl Written {
    fn beside(target: &Path, bytes: &[u8]) -> io::Result<Self> {
        let target = resolved(target);
        let name = target.file_name().unwrap_or_default().display();
        let beside = |number: u32, what| target.with_file_name(format!(".{name}.{number}.{what}"));
        let number = (0..).find(|it| !beside(*it, "new").exists() && !beside(*it, "old").exists()).unwrap_or_default();
        let (new, old) = (beside(number, "new"), beside(number, "old"));
        let mut file = File::create_new(&new)?;
        let written = Written { target, new, old };
        match File::options().write(true).open(&written.target) {
            Ok(it) => file.set_permissions(it.metadata()?.permissions())?,
            Err(fault) if fault.kind() == ErrorKind::NotFound => {}
            Err(fault) => return Err(fault),
        }
        file.write_all(bytes)?;
        file.sync_all()?;
        Ok(written)
    }
}

impl Drop for Written {
    fn drop(&mut self) {
        let _ = fs::remove_file(&self.new);
    }
}

/// Puts one file in place, or several together: at no time is one new and another old.
fn put_in_place(files: &[Written]) -> Result<()> {
    let aside: Vec<_> = files.iter().filter(|it| files.len() > 1 && it.target.exists()).collect();
    let away = aside.iter().map(|it| (&*it.target, &*it.old));
    let moves: Vec<_> = away.chain(files.iter().rev().map(|it| (&*it.new, &*it.target))).collect();
    move_all(&moves)?;
    for it in aside {
        let _ = fs::remove_file(&it.old);
    }
    Ok(())
}

/// Renames files in this order. If one can't be renamed, those before it get their names back.
fn move_all(moves: &[(&Path, &Path)]) -> Result<()> {
    for (done, (from, to)) in moves.iter().enumerate() {
        if let Err(fault) = fs::rename(from, to) {
            let mut message = format!("{} can't be renamed to {}: {fault}", from.display(), to.display());
            for (from, to) in moves[..done].iter().rev() {
                if fs::rename(to, from).is_err() {
                    message += &format!("; {} is at {}", from.display(), to.display());
                }
            }
            return Err(message.into());
        }
    }
    Ok(())
}

#[cfg(test)]
#[test]
fn several_files_are_put_in_place_or_none() {
    let folder = std::env::temp_dir().join(format!("tinystr-table.{}", std::process::id()));
    let targets = ["a", "b"].map(|it| folder.join(it));
    fs::create_dir(&folder).unwrap();
    let files = targets.each_ref().map(|it| {
        fs::write(it, "old").unwrap();
        Written::beside(it, b"new").unwrap()
    });
    fs::remove_file(&files[0].new).unwrap();
    let result = put_in_place(&files);
    let there = targets.map(|it| fs::read_to_string(it).unwrap_or_default());
    let are_aside = files.each_ref().map(|it| it.old.exists());
    fs::remove_dir_all(&folder).unwrap();
    assert!(result.is_err());
    assert_eq!((there, are_aside), (["old", "old"].map(String::from), [false; 2]));
}
