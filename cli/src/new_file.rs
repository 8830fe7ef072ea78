//! A file that is written whole or not at all.

use crate::failure::{Failure, Outcome};
use crate::signals;
use std::fs::{self, File};
use std::io::{self, Write};
use std::path::{Path, PathBuf};

/// A file being written. It has a temporary name beside its own until it is kept, and is removed
/// where it is not. What is no plain file, as /dev/null, is written to as it stands.
pub struct NewFile {
    target: PathBuf,
    temporary: Option<PathBuf>,
    file: File,
}

impl NewFile {
    pub fn create(path: &Path) -> Outcome<NewFile> {
        let failed = |error: io::Error| Failure::file("write", path, &error);
        let found = fs::metadata(path);
        if found.as_ref().is_ok_and(|found| !found.is_file() && !found.is_dir()) {
            let file = File::options().write(true).open(path).map_err(failed)?;
            return Ok(NewFile { target: path.into(), temporary: None, file });
        }
        if found.as_ref().is_ok_and(|found| found.is_dir()) {
            return Err(failed(io::ErrorKind::IsADirectory.into()));
        }
        if found.is_ok_and(|found| found.permissions().readonly()) {
            return Err(failed(io::Error::other("it is read-only")));
        }
        let target = fs::canonicalize(path).unwrap_or_else(|_| path.into());
        let mut name = target.file_name().unwrap_or_default().to_os_string();
        name.push(format!(".{}.part", std::process::id()));
        let temporary = target.with_file_name(name);
        signals::unfinished(&temporary);
        let file = File::options().write(true).create_new(true).open(&temporary);
        let file = file.inspect_err(|_| signals::finished()).map_err(failed)?;
        Ok(NewFile { target, temporary: Some(temporary), file })
    }

    pub fn write(&mut self, bytes: &[u8]) -> Outcome {
        self.file.write_all(bytes).map_err(|error| Failure::file("write", &self.target, &error))
    }

    /// Gives the file its name, once all of it is on the disk.
    pub fn keep(mut self) -> Outcome {
        let failed = |error: io::Error| Failure::file("write", &self.target, &error);
        if let Some(temporary) = &self.temporary {
            self.file.sync_all().map_err(failed)?;
            fs::rename(temporary, &self.target).map_err(failed)?;
            signals::finished();
            self.temporary = None;
        }
        Ok(())
    }
}

impl Drop for NewFile {
    fn drop(&mut self) {
        if let Some(temporary) = &self.temporary {
            let _ = fs::remove_file(temporary);
            signals::finished();
        }
    }
}

#[cfg(test)]
mod tests {
    use super::*;
    use crate::files::{refuse_same, write};

    /// A folder of its own, which is removed when it is dropped.
    struct Folder(PathBuf);

    impl Folder {
        fn new(name: &str) -> Folder {
            let name = format!("jivaszte-{name}-{}", std::process::id());
            let path = std::env::temp_dir().join(name);
            fs::create_dir(&path).unwrap();
            Folder(path)
        }

        fn count(&self) -> usize {
            fs::read_dir(&self.0).unwrap().count()
        }
    }

    impl Drop for Folder {
        fn drop(&mut self) {
            let _ = fs::remove_dir_all(&self.0);
        }
    }

    #[test]
    fn a_file_is_there_whole_or_not_at_all() {
        let folder = Folder::new("whole");
        let path = folder.0.join("take.wav");
        let mut dropped = NewFile::create(&path).unwrap();
        dropped.write(b"half").unwrap();
        assert!(folder.count() == 1 && !path.exists());
        drop(dropped);
        assert_eq!(folder.count(), 0);
        write(&path, b"whole").unwrap();
        write(&path, b"again").unwrap();
        assert_eq!((folder.count(), fs::read(&path).unwrap()), (1, b"again".to_vec()));
    }

    #[test]
    fn what_is_no_plain_file_is_not_replaced() {
        let folder = Folder::new("plain");
        let (socket, file) = (folder.0.join("socket"), folder.0.join("file"));
        let _listens = std::os::unix::net::UnixListener::bind(&socket).unwrap();
        assert!(write(&socket, b"take").is_err());
        assert!(write(&folder.0, b"take").is_err());
        assert!(!fs::metadata(&socket).unwrap().is_file() && folder.count() == 1);
        fs::write(&file, b"score").unwrap();
        let link = folder.0.join("link");
        std::os::unix::fs::symlink(&file, &link).unwrap();
        assert!(refuse_same(&file, &link).is_err());
        assert_eq!(refuse_same(&file, &folder.0.join("other")), Ok(()));
        write(&link, b"take").unwrap();
        assert_eq!(fs::read(&file).unwrap(), b"take");
    }
}
