//! The daemon's folder and its files: nothing of another user is touched, no link is followed, and what a
//! file has is never emptied.
use crate::os::{self, open};
use std::fs::{DirBuilder, File, OpenOptions, Permissions};
use std::io::{Error, ErrorKind, Result, Write};
use std::os::fd::{AsRawFd, OwnedFd, RawFd};
use std::os::unix::fs::{
    fchown, lchown, DirBuilderExt, MetadataExt, OpenOptionsExt, PermissionsExt,
};
use std::path::{Path, PathBuf};

/// The folder of sockets, dump and capture. One process has it at a time.
pub struct Folder {
    path: PathBuf,
    /// Locked for as long as the daemon runs.
    _lock: File,
    /// Whose members may connect and read the dump.
    group: Option<u32>,
}

impl Folder {
    /// The folder, which is made where it is not there; or why it is not taken.
    pub fn open(path: &Path, group: Option<u32>) -> std::result::Result<Folder, String> {
        let said = |why: String| format!("{}: {why}", path.display());
        let lock = own_folder(path, group).map_err(|e| said(e.to_string()))?;
        lock.try_lock()
            .map_err(|_| said("another m2ua-gateway has this folder".into()))?;
        Ok(Folder {
            path: path.into(),
            _lock: lock,
            group,
        })
    }

    pub fn join(&self, name: &str) -> PathBuf {
        self.path.join(name)
    }

    /// Writes a file whole: under another name first, which then takes the place of the old one.
    pub fn replace(&self, name: &str, text: &str) -> Result<()> {
        let part = self.join(&format!("{name}.part"));
        // whatever has that name, a link too, is taken away and not written on
        match std::fs::remove_file(&part) {
            Err(e) if e.kind() != ErrorKind::NotFound => return Err(e),
            _ => {}
        }
        let mode = if self.group.is_some() { 0o640 } else { 0o600 };
        let mut file = OpenOptions::new()
            .write(true)
            .create_new(true)
            .mode(mode)
            .custom_flags(open::NO_LINK)
            .open(&part)?;
        fchown(&file, None, self.group)?;
        file.write_all(text.as_bytes())?;
        std::fs::rename(&part, self.join(name))
    }

    /// A listening socket by a name, and whether a process that is no more had left one there, which is taken
    /// away.
    pub fn listen(&self, name: &str) -> std::result::Result<(Entrance, bool), String> {
        let path = self.join(name);
        let said = |e: Error| format!("{}: {e}", path.display());
        let left = match os::seqpacket_connect(&path) {
            Err(e) if e.kind() == ErrorKind::NotFound => false,
            Err(e) if e.kind() == ErrorKind::ConnectionRefused => true,
            Ok(_) => {
                return Err(format!(
                    "{}: a running process has this socket",
                    path.display()
                ))
            }
            Err(e) => return Err(said(e)),
        };
        if left {
            is_socket(&path)
                .and_then(|()| std::fs::remove_file(&path))
                .map_err(said)?;
        }
        let fd = os::seqpacket_listen(&path, self.group.is_some()).map_err(said)?;
        let entrance = Entrance { fd, path };
        lchown(&entrance.path, None, self.group)
            .map_err(|e| format!("{}: {e}", entrance.path.display()))?;
        Ok((entrance, left))
    }
}

/// A folder of this user that nobody else may write to, open.
fn own_folder(path: &Path, group: Option<u32>) -> Result<File> {
    let mode = if group.is_some() { 0o750 } else { 0o700 };
    DirBuilder::new().recursive(true).mode(mode).create(path)?;
    let way = std::fs::symlink_metadata(path)?;
    if way.is_symlink() && way.uid() != 0 {
        own(way.uid())?;
    }
    let folder = OpenOptions::new()
        .read(true)
        .custom_flags(open::FOLDER)
        .open(path)?;
    let seen = folder.metadata()?;
    own(seen.uid())?;
    if seen.mode() & 0o022 != 0 {
        return Err(Error::other(format!(
            "others may write there (mode {:o})",
            seen.mode() & 0o7777
        )));
    }
    if let Some(group) = group {
        fchown(&folder, None, Some(group))?;
        folder.set_permissions(Permissions::from_mode(seen.mode() & 0o7777 | 0o050))?;
    }
    Ok(folder)
}

fn own(user: u32) -> Result<()> {
    if user == os::user() {
        return Ok(());
    }
    Err(Error::new(
        ErrorKind::PermissionDenied,
        format!("it belongs to another user (number {user})"),
    ))
}

fn is_socket(path: &Path) -> Result<()> {
    use std::os::unix::fs::FileTypeExt;
    if std::fs::symlink_metadata(path)?.file_type().is_socket() {
        return Ok(());
    }
    Err(Error::new(
        ErrorKind::AlreadyExists,
        "it is there, and is no socket",
    ))
}

/// A listening Unix socket, which is removed with this value.
pub struct Entrance {
    fd: OwnedFd,
    path: PathBuf,
}

impl Entrance {
    pub fn accept(&self) -> Result<OwnedFd> {
        os::accept(&self.fd)
    }
}

impl AsRawFd for Entrance {
    fn as_raw_fd(&self) -> RawFd {
        self.fd.as_raw_fd()
    }
}

impl Drop for Entrance {
    fn drop(&mut self) {
        let _ = std::fs::remove_file(&self.path);
    }
}

/// A file of this user to be read, and written on at its end: made, for this user alone, where it is not
/// there. No other process of ours has it.
pub fn append(path: &Path) -> Result<File> {
    let opened = OpenOptions::new()
        .read(true)
        .append(true)
        .create(true)
        .mode(0o600)
        .custom_flags(open::NO_LINK | open::NO_WAIT)
        .open(path);
    let is_link = |p: &Path| std::fs::symlink_metadata(p).is_ok_and(|seen| seen.is_symlink());
    let file = opened.map_err(|e| {
        if is_link(path) {
            Error::new(e.kind(), "it is a link, which is not followed")
        } else {
            e
        }
    })?;
    let seen = file.metadata()?;
    if !seen.is_file() {
        return Err(Error::other("it is no regular file"));
    }
    own(seen.uid())?;
    file.try_lock()
        .map_err(|_| Error::other("another process writes it"))?;
    Ok(file)
}

/// Whether a path leads to another file than the one that is open, or to none: it was moved away.
pub fn is_moved(file: &File, path: &Path) -> Result<bool> {
    let one = file.metadata()?;
    match std::fs::symlink_metadata(path) {
        Ok(other) => Ok((one.dev(), one.ino()) != (other.dev(), other.ino())),
        Err(e) if e.kind() == ErrorKind::NotFound => Ok(true),
        Err(e) => Err(e),
    }
}

#[cfg(test)]
mod tests {
    use super::*;
    use std::os::unix::fs::symlink;

    /// A fresh folder for a test, under a name of its own.
    fn room(name: &str) -> PathBuf {
        let path = std::env::temp_dir().join(format!("m2ua-files-{}-{name}", std::process::id()));
        let _ = std::fs::remove_dir_all(&path);
        DirBuilder::new().mode(0o700).create(&path).unwrap();
        path
    }

    #[test]
    fn no_link_is_followed_and_nothing_is_emptied() {
        let at = room("links");
        let (kept, link) = (at.join("kept"), at.join("link"));
        std::fs::write(&kept, "kept").unwrap();
        symlink(&kept, &link).unwrap();
        let why = append(&link).unwrap_err().to_string();
        assert_eq!(why, "it is a link, which is not followed");
        let folder = Folder::open(&at, None).unwrap();
        for name in ["state.part", "state"] {
            symlink(&kept, at.join(name)).unwrap();
            folder.replace("state", "dump").unwrap();
            assert_eq!(std::fs::read_to_string(at.join("state")).unwrap(), "dump");
            std::fs::remove_file(at.join("state")).unwrap();
        }
        assert_eq!(std::fs::read_to_string(&kept).unwrap(), "kept");
        let mut more = append(&kept).unwrap();
        more.write_all(b" and more").unwrap();
        assert_eq!(std::fs::read_to_string(&kept).unwrap(), "kept and more");
        assert!(append(&kept).is_err(), "it is written by one at a time");
        assert!(!is_moved(&more, &kept).unwrap());
        std::fs::rename(&kept, at.join("moved")).unwrap();
        assert!(is_moved(&more, &kept).unwrap());
        std::fs::remove_dir_all(&at).unwrap();
    }

    #[test]
    fn a_folder_is_ones_own_and_ones_alone() {
        let at = room("own");
        let folder = Folder::open(&at, None).unwrap();
        let second = Folder::open(&at, None).err().unwrap();
        assert!(second.ends_with("another m2ua-gateway has this folder"));
        drop(folder);
        std::fs::set_permissions(&at, Permissions::from_mode(0o770)).unwrap();
        let open = Folder::open(&at, None).err().unwrap();
        assert!(open.ends_with("others may write there (mode 770)"));
        std::fs::remove_dir_all(&at).unwrap();
        if os::user() != 0 {
            let other = Folder::open(Path::new("/"), None).err().unwrap();
            assert!(other.ends_with("it belongs to another user (number 0)"));
        }
    }

    #[test]
    fn a_socket_that_was_left_is_taken_away() {
        let at = room("left");
        let folder = Folder::open(&at, None).unwrap();
        let (entrance, left) = folder.listen("links").unwrap();
        assert!(!left);
        let second = folder.listen("links").err().unwrap();
        assert!(second.ends_with("links: a running process has this socket"));
        let path = entrance.path.clone();
        drop(entrance);
        assert!(!path.exists());
        // as of a process that is killed: the descriptor goes, the path stays
        drop(os::seqpacket_listen(&path, false).unwrap());
        let (_entrance, left) = folder.listen("links").unwrap();
        assert!(left);
        std::fs::write(at.join("file"), "").unwrap();
        assert!(folder.listen("file").is_err());
        assert!(at.join("file").exists());
        std::fs::remove_dir_all(&at).unwrap();
    }
}
