//! Where clients come in: the socket of the folder, and a loopback address if one was given.
use super::{listening, say, socket_path, Options};
use crate::Outcome;
use std::fs::Permissions;
use std::io::{Read, Result, Write};
use std::net::{TcpListener, TcpStream};
use std::os::fd::{AsRawFd, RawFd};
use std::os::unix::fs::PermissionsExt;
use std::os::unix::net::{UnixListener, UnixStream};

pub enum Door {
    Unix(UnixListener),
    Tcp(TcpListener),
}

/// Its owner and its group may write to the socket: the folder's permissions say who can come to it at all.
const MODE: u32 = 0o660;

pub fn open(options: &Options) -> Outcome<Vec<Door>> {
    let path = socket_path(options);
    // The lock is ours, so a socket that is there is a dead desk's. It has its name when it has its permissions.
    let unfinished = options.folder.join("sock.tmp");
    let _ = std::fs::remove_file(&unfinished);
    let unix = listening(UnixListener::bind(&unfinished))?;
    listening(std::fs::set_permissions(&unfinished, Permissions::from_mode(MODE)))?;
    listening(std::fs::rename(&unfinished, &path))?;
    listening(unix.set_nonblocking(true))?;
    let mut doors = vec![Door::Unix(unix)];
    if let Some(address) = options.tcp {
        let tcp = listening(TcpListener::bind(address))?;
        listening(tcp.set_nonblocking(true))?;
        say(&format!("tcp {}", listening(tcp.local_addr())?));
        doors.push(Door::Tcp(tcp));
    }
    Ok(doors)
}

pub fn close(options: &Options) {
    let _ = std::fs::remove_file(socket_path(options));
}

impl Door {
    pub fn fd(&self) -> RawFd {
        match self {
            Door::Unix(door) => door.as_raw_fd(),
            Door::Tcp(door) => door.as_raw_fd(),
        }
    }

    pub fn accept(&self) -> Result<Stream> {
        match self {
            Door::Unix(door) => {
                let stream = door.accept()?.0;
                stream.set_nonblocking(true)?;
                Ok(Stream::Unix(stream))
            }
            Door::Tcp(door) => {
                let stream = door.accept()?.0;
                stream.set_nonblocking(true)?;
                stream.set_nodelay(true)?;
                crate::system::keep_alive(stream.as_raw_fd());
                Ok(Stream::Tcp(stream))
            }
        }
    }
}

/// The connection of a client.
pub enum Stream {
    Unix(UnixStream),
    Tcp(TcpStream),
}

impl Stream {
    pub fn fd(&self) -> RawFd {
        match self {
            Stream::Unix(stream) => stream.as_raw_fd(),
            Stream::Tcp(stream) => stream.as_raw_fd(),
        }
    }

    pub fn read(&mut self, room: &mut [u8]) -> Result<usize> {
        match self {
            Stream::Unix(stream) => stream.read(room),
            Stream::Tcp(stream) => stream.read(room),
        }
    }

    pub fn write(&mut self, bytes: &[u8]) -> Result<usize> {
        match self {
            Stream::Unix(stream) => stream.write(bytes),
            Stream::Tcp(stream) => stream.write(bytes),
        }
    }
}
