//! Files that are written whole or not at all, and never over one that is not meant.

use std::ffi::OsString;
use std::fs::{self, File, OpenOptions, Permissions};
use std::io::{self, ErrorKind, Write};
use std::path::{Path, PathBuf};

/// So many older files are kept beside one, at the most.
const KEPT: usize = 999;

/// Writes a file that there is not yet.
pub fn create(path: &Path, bytes: &[u8]) -> io::Result<()> {
    create_as(path, bytes, None)
}

/// Writes new bytes over a file's old ones, which are kept beside it first, and gives the name that they are kept by.
/// A link is followed; a file that has other bytes than the old ones by now is left.
pub fn replace(path: &Path, old: &[u8], new: &[u8]) -> io::Result<PathBuf> {
    let path = followed(path)?;
    let about = fs::metadata(&path)?;
    if !about.is_file() {
        return Err(io::Error::other("it is no regular file"));
    }
    let permissions = about.permissions();
    // Renaming asks for no permission of the file itself.
    if permissions.readonly() {
        return Err(io::Error::other("it is read-only"));
    }
    if fs::read(&path)? != old {
        return Err(io::Error::other("it has changed since it was read"));
    }
    let kept = free_name(&path)?;
    create_as(&kept, old, Some(permissions.clone()))?;
    let draft = draft(&path, new, Some(permissions))?;
    settled(fs::rename(&draft, &path), &draft)?;
    Ok(kept)
}

/// Writes a file that there is not yet, with the permissions of another.
fn create_as(path: &Path, bytes: &[u8], permissions: Option<Permissions>) -> io::Result<()> {
    let taken = || {
        io::Error::new(
            ErrorKind::AlreadyExists,
            "there is one of that name already",
        )
    };
    if !is_free(path) {
        return Err(taken());
    }
    let draft = draft(path, bytes, permissions)?;
    let named = match is_free(path) {
        true => fs::rename(&draft, path),
        false => Err(taken()),
    };
    settled(named, &draft)
}

/// The file that a link stands for; any other path is that of its own file.
fn followed(path: &Path) -> io::Result<PathBuf> {
    match path.symlink_metadata()?.is_symlink() {
        true => fs::canonicalize(path),
        false => Ok(path.to_path_buf()),
    }
}

/// The first name for an older file beside one that nothing has.
fn free_name(path: &Path) -> io::Result<PathBuf> {
    let names = (1..=KEPT).map(|number| match number {
        1 => beside(path, ".bak"),
        _ => beside(path, &format!(".bak{number}")),
    });
    let full = || io::Error::other(format!("{KEPT} older ones are kept beside it already"));
    names
        .into_iter()
        .find(|name| is_free(name))
        .ok_or_else(full)
}

/// Whether nothing has a name, not even a link that leads nowhere.
fn is_free(path: &Path) -> bool {
    matches!(path.symlink_metadata(), Err(error) if error.kind() == ErrorKind::NotFound)
}

/// A path with something behind it, in the same folder.
fn beside(path: &Path, ending: &str) -> PathBuf {
    let mut name = OsString::from(path);
    name.push(ending);
    PathBuf::from(name)
}

/// Writes bytes by a name of this program's own, beside the one that they are to have.
fn draft(path: &Path, bytes: &[u8], permissions: Option<Permissions>) -> io::Result<PathBuf> {
    let draft = beside(path, &format!(".draft-{}", std::process::id()));
    let file = OpenOptions::new()
        .write(true)
        .create_new(true)
        .open(&draft)?;
    settled(filled(file, bytes, permissions), &draft)?;
    Ok(draft)
}

/// Puts bytes into a file, down to the disk.
fn filled(mut file: File, bytes: &[u8], permissions: Option<Permissions>) -> io::Result<()> {
    if let Some(permissions) = permissions {
        file.set_permissions(permissions)?;
    }
    file.write_all(bytes)?;
    file.sync_all()
}

/// What was done with a draft, which is not left behind where that failed.
fn settled(done: io::Result<()>, draft: &Path) -> io::Result<()> {
    if done.is_err() {
        // Where it cannot be removed either, the first trouble is the one to tell.
        let _ = fs::remove_file(draft);
    }
    done
}

#[cfg(test)]
mod tests {
    use super::*;

    /// A folder of a test's own, removed at its end.
    struct Folder(PathBuf);

    impl Folder {
        fn new(test: &str) -> io::Result<Folder> {
            let name = format!("lumbrisse-store-{test}-{}", std::process::id());
            let folder = std::env::temp_dir().join(name);
            fs::create_dir_all(&folder)?;
            Ok(Folder(folder))
        }

        fn path(&self, name: &str) -> PathBuf {
            self.0.join(name)
        }

        fn names(&self) -> io::Result<Vec<String>> {
            let name = |entry: io::Result<fs::DirEntry>| {
                entry.map(|entry| entry.file_name().to_string_lossy().into_owned())
            };
            let mut names: Vec<String> =
                fs::read_dir(&self.0)?.map(name).collect::<Result<_, _>>()?;
            names.sort();
            Ok(names)
        }
    }

    impl Drop for Folder {
        fn drop(&mut self) {
            let _ = fs::remove_dir_all(&self.0);
        }
    }

    fn said<T>(done: io::Result<T>) -> Option<String> {
        done.err().map(|error| error.to_string())
    }

    #[test]
    fn a_new_file_is_written_over_none() -> io::Result<()> {
        let folder = Folder::new("new")?;
        let path = folder.path("a");
        create(&path, b"one")?;
        assert_eq!(fs::read(&path)?, b"one");
        let taken = "there is one of that name already";
        assert_eq!(said(create(&path, b"two")).as_deref(), Some(taken));
        assert_eq!(fs::read(&path)?, b"one");
        assert!(create(&folder.path("none/a"), b"one").is_err());
        assert!(create(&folder.path(""), b"one").is_err());
        assert_eq!(folder.names()?, ["a"]);
        Ok(())
    }

    #[test]
    fn what_a_file_was_is_kept_beside_it() -> io::Result<()> {
        let folder = Folder::new("kept")?;
        let path = folder.path("a");
        fs::write(&path, b"0")?;
        for (old, new, kept) in [
            (b"0", b"1", "a.bak"),
            (b"1", b"2", "a.bak2"),
            (b"2", b"3", "a.bak3"),
        ] {
            let name = replace(&path, old, new)?;
            assert_eq!(name, folder.path(kept));
            assert_eq!(
                (fs::read(&name)?, fs::read(&path)?),
                (old.to_vec(), new.to_vec())
            );
        }
        assert_eq!(fs::read(folder.path("a.bak"))?, b"0");
        assert_eq!(folder.names()?, ["a", "a.bak", "a.bak2", "a.bak3"]);
        Ok(())
    }

    #[test]
    fn a_file_that_is_not_as_it_was_read_is_left() -> io::Result<()> {
        let folder = Folder::new("left")?;
        let path = folder.path("a");
        fs::write(&path, b"by another")?;
        let changed = said(replace(&path, b"as read", b"new"));
        assert_eq!(changed.as_deref(), Some("it has changed since it was read"));

        let mut permissions = fs::metadata(&path)?.permissions();
        permissions.set_readonly(true);
        fs::set_permissions(&path, permissions)?;
        let fixed = said(replace(&path, b"by another", b"new"));
        assert_eq!(fixed.as_deref(), Some("it is read-only"));

        let folder_itself = said(replace(&folder.0, b"", b"new"));
        assert_eq!(folder_itself.as_deref(), Some("it is no regular file"));
        assert!(replace(&folder.path("none"), b"", b"new").is_err());
        assert_eq!(fs::read(&path)?, b"by another");
        assert_eq!(folder.names()?, ["a"]);
        Ok(())
    }

    #[cfg(unix)]
    #[test]
    fn a_link_stays_one_and_permissions_stay_too() -> io::Result<()> {
        use std::os::unix::fs::{symlink, PermissionsExt};

        let folder = Folder::new("link")?;
        let (path, link) = (folder.path("a"), folder.path("link"));
        fs::write(&path, b"old")?;
        fs::set_permissions(&path, Permissions::from_mode(0o640))?;
        symlink("a", &link)?;
        let kept = replace(&link, b"old", b"new")?;
        assert_eq!(fs::read(&path)?, b"new");
        assert!(link.symlink_metadata()?.is_symlink());
        for name in [path, kept] {
            let mode = fs::metadata(name)?.permissions().mode();
            assert_eq!(mode & 0o777, 0o640);
        }
        symlink("nowhere", folder.path("b"))?;
        assert!(create(&folder.path("b"), b"").is_err());
        assert_eq!(folder.names()?, ["a", "a.bak", "b", "link"]);
        Ok(())
    }
}
