//! A file that appears only whole: it is written under another name in the same folder, and gets its own when all of it is on the disk.

use std::fs::{self, File, OpenOptions};
use std::io::{Error, ErrorKind, Result, Write};
use std::path::{Path, PathBuf};

use crate::Fault;

/// Writes a file in parts of so many bytes, and tells `shown` how many are done. Where it can't be, what stood there stays.
pub fn write(out: &Path, bytes: &[u8], part: usize, shown: impl FnMut(u64)) -> std::result::Result<(), Fault> {
    replace(out, bytes, part, shown).map_err(|e| format!("{}: could not be written: {e}", out.display()))
}

fn replace(out: &Path, bytes: &[u8], part: usize, mut shown: impl FnMut(u64)) -> Result<()> {
    let out = &place(out)?;
    let mut other = Other::beside(out)?;
    let mut done = 0;
    for part in bytes.chunks(part) {
        other.file.write_all(part)?;
        done += part.len() as u64;
        shown(done);
    }
    other.become_file(out)
}

/// Where the file is to stand. A link stays, and what it leads to is replaced: /dev/stdout may lead to a file as well.
fn place(out: &Path) -> Result<PathBuf> {
    // Renaming would put a file in the place of a device, and what a pipe was given can't be taken back.
    if fs::metadata(out).is_ok_and(|there| !there.is_file()) {
        return Err(Error::new(ErrorKind::InvalidInput, "it is there, and is no regular file"));
    }
    match fs::canonicalize(out) {
        Err(_) if fs::symlink_metadata(out).is_err() => Ok(out.to_path_buf()),
        place => place,
    }
}

/// The file under its other name, which is removed again unless it becomes the file.
struct Other {
    file: File,
    path: PathBuf,
    renamed: bool,
}

impl Other {
    /// A new file beside one. A name that is taken belongs to another run, or was left by one that was killed.
    fn beside(out: &Path) -> Result<Other> {
        let mut number = 0;
        loop {
            let path = out.with_file_name(format!(".pivotspark-{}-{number}.part", std::process::id()));
            match OpenOptions::new().write(true).create_new(true).open(&path) {
                Ok(file) => return Ok(Other { file, path, renamed: false }),
                Err(e) if e.kind() == ErrorKind::AlreadyExists => number += 1,
                Err(e) => return Err(e),
            }
        }
    }

    fn become_file(mut self, out: &Path) -> Result<()> {
        self.file.sync_all()?;
        fs::rename(&self.path, out)?;
        self.renamed = true;
        Ok(())
    }
}

impl Drop for Other {
    fn drop(&mut self) {
        if !self.renamed {
            // The fault that led here is the one to tell.
            let _ = fs::remove_file(&self.path);
        }
    }
}

#[cfg(test)]
mod tests {
    use std::os::unix::fs::symlink;

    use super::*;

    /// An empty folder of this test.
    fn folder(name: &str) -> PathBuf {
        let path = std::env::temp_dir().join(format!("pivotspark-{}-{name}", std::process::id()));
        let _ = fs::remove_dir_all(&path);
        fs::create_dir(&path).unwrap();
        path
    }

    fn names(folder: &Path) -> Vec<String> {
        let mut names: Vec<_> = fs::read_dir(folder).unwrap().map(|e| e.unwrap().file_name().into_string().unwrap()).collect();
        names.sort();
        names
    }

    #[test]
    fn a_file_is_replaced_whole() {
        let folder = folder("whole");
        let out = folder.join("out");
        for text in [&b"first"[..], b"", b"the second one"] {
            let mut told = Vec::new();
            write(&out, text, 4, |done| told.push(done)).unwrap();
            assert_eq!(fs::read(&out).unwrap(), text);
            assert_eq!(told.last().copied().unwrap_or(0), text.len() as u64);
            assert_eq!(told.len(), text.len().div_ceil(4));
        }
        assert_eq!(names(&folder), ["out"]);
        fs::remove_dir_all(&folder).unwrap();
    }

    #[test]
    fn names_that_are_taken_are_left_alone() {
        let folder = folder("taken");
        let (out, taken) = (folder.join("out"), folder.join(format!(".pivotspark-{}-0.part", std::process::id())));
        fs::write(&taken, "another's").unwrap();
        write(&out, b"ours", 10, |_| ()).unwrap();
        assert_eq!((fs::read(&out).unwrap(), fs::read(&taken).unwrap()), (b"ours".to_vec(), b"another's".to_vec()));
        assert_eq!(names(&folder).len(), 2);
        fs::remove_dir_all(&folder).unwrap();
    }

    #[test]
    fn a_link_stays() {
        let folder = folder("link");
        let (inner, link, lost) = (folder.join("inner"), folder.join("link"), folder.join("lost"));
        fs::create_dir(&inner).unwrap();
        fs::write(inner.join("out"), "old").unwrap();
        symlink("inner/out", &link).unwrap();
        symlink("inner/no", &lost).unwrap();
        write(&link, b"ours", 10, |_| ()).unwrap();
        assert_eq!((fs::read(inner.join("out")).unwrap(), fs::read_link(&link).unwrap()), (b"ours".to_vec(), "inner/out".into()));
        assert!(write(&lost, b"ours", 10, |_| ()).is_err());
        assert_eq!(
            (names(&folder), names(&inner)),
            (["inner", "link", "lost"].map(String::from).into(), vec!["out".to_string()])
        );
        fs::remove_dir_all(&folder).unwrap();
    }

    #[test]
    fn what_is_no_regular_file_stays() {
        let folder = folder("stays");
        let inner = folder.join("inner");
        fs::create_dir(&inner).unwrap();
        assert!(write(&inner, b"ours", 10, |_| ()).unwrap_err().ends_with("it is there, and is no regular file"));
        assert!(write(&inner.join("no/out"), b"ours", 10, |_| ()).is_err());
        assert_eq!((names(&folder), names(&inner).len()), (vec!["inner".to_string()], 0));
        fs::remove_dir_all(&folder).unwrap();
    }
}
