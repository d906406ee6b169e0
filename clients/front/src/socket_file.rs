//! The files of unix sockets: which file a new socket may replace, who may connect to it, and which
//! one the front removes at its end.

use nix::sys::stat::{umask, Mode};
use nix::unistd::{chown, Gid};
use std::fs::{self, Metadata, Permissions};
use std::io;
use std::os::unix::fs::{FileTypeExt, MetadataExt, PermissionsExt};
use std::os::unix::net::{UnixListener, UnixStream};

/// The file of a socket that this process has bound.
#[derive(Clone, Debug)]
pub struct SocketFile {
    path: String,
    device: u64,
    inode: u64,
}

impl SocketFile {
    fn of(path: &str) -> io::Result<SocketFile> {
        let it = fs::symlink_metadata(path)?;
        Ok(SocketFile { path: path.to_string(), device: it.dev(), inode: it.ino() })
    }

    /// Removes the file, unless another process has replaced it. While this process listens, no
    /// other file can have its inode.
    pub fn remove(&self) {
        let is_own = |it: &Metadata| it.dev() == self.device && it.ino() == self.inode;
        if fs::symlink_metadata(&self.path).map_or(false, |it| is_own(&it)) {
            let _ = fs::remove_file(&self.path);
        }
    }
}

/// Who may connect to a unix socket.
#[derive(Clone, Copy, Debug, Default, PartialEq, Eq)]
pub struct Rights {
    /// The permissions of its file; by default those that umask leaves.
    pub mode: Option<u32>,
    /// The group of its file.
    pub group: Option<u32>,
}

/// Binds a unix socket. A socket that no process listens on is replaced, and no other file is: the
/// error is `AlreadyExists` then.
pub fn bind(path: &str, rights: Rights) -> io::Result<(UnixListener, SocketFile)> {
    let listener = match bind_for_owner(path, rights) {
        Err(e) if e.kind() == io::ErrorKind::AddrInUse => {
            remove_unused(path)?;
            bind_for_owner(path, rights)?
        }
        it => it?,
    };
    let file = SocketFile::of(path)?;
    give(path, rights).map_err(|e| {
        file.remove();
        e
    })?;
    Ok((listener, file))
}

fn give(path: &str, rights: Rights) -> io::Result<()> {
    if let Some(group) = rights.group {
        chown(path, None, Some(Gid::from_raw(group)))?;
    }
    if let Some(mode) = rights.mode {
        fs::set_permissions(path, Permissions::from_mode(mode))?;
    }
    Ok(())
}

/// Binds a socket. If it is given permissions, only its owner may connect until it has its group.
fn bind_for_owner(path: &str, rights: Rights) -> io::Result<UnixListener> {
    let before = rights.mode.map(|_| umask(Mode::from_bits_truncate(0o177)));
    let listener = UnixListener::bind(path);
    before.map(umask);
    listener
}

/// Removes a socket that no process listens on. A connection to a file that isn't a socket is
/// refused too, so the type is tested first.
fn remove_unused(path: &str) -> io::Result<()> {
    if !fs::symlink_metadata(path)?.file_type().is_socket() {
        let reason = "the file exists and isn't a socket; remove it, or choose another path";
        return Err(io::Error::new(io::ErrorKind::AlreadyExists, reason));
    }
    match UnixStream::connect(path) {
        Err(e) if e.kind() == io::ErrorKind::ConnectionRefused => fs::remove_file(path),
        _ => {
            let reason = "another process listens on it";
            Err(io::Error::new(io::ErrorKind::AddrInUse, reason))
        }
    }
}
