//! What an error of reading a tray says: that the medium is damaged, that this command may not read
//! it, or that the system had nothing left to read it with.

use std::io;

/// Three kinds of trouble.
#[derive(Clone, Copy, PartialEq, Eq, Debug)]
pub enum Trouble {
    /// The medium cannot be read: the tray is damaged there.
    Medium,
    /// It may not be read by this command: the tray may be as it should be.
    Closed,
    /// Nothing is known of the tray, and the command cannot go on: no handles or memory are left.
    Local,
}

/// Error numbers of a medium: EIO, ENXIO, ENODATA, EBADMSG, EUCLEAN, EREMOTEIO.
const MEDIUM: [i32; 6] = [5, 6, 61, 74, 117, 121];

/// Error numbers of names and rights: EPERM, EACCES, ENOTDIR, EISDIR, ELOOP.
const CLOSED: [i32; 5] = [1, 13, 20, 21, 40];

impl Trouble {
    pub fn of(error: &io::Error) -> Trouble {
        match error.raw_os_error() {
            Some(number) if MEDIUM.contains(&number) => Trouble::Medium,
            Some(number) if CLOSED.contains(&number) => Trouble::Closed,
            // What is no regular file is none of a cabinet's.
            None if error.kind() == io::ErrorKind::Other => Trouble::Closed,
            _ => Trouble::Local,
        }
    }
}

#[cfg(test)]
mod tests {
    use super::Trouble;
    use std::io;

    #[test]
    fn errors_are_told_apart() {
        let of = |number| Trouble::of(&io::Error::from_raw_os_error(number));
        assert_eq!(of(5), Trouble::Medium);
        assert_eq!(of(13), Trouble::Closed);
        for local in [4, 11, 12, 23, 24] {
            assert_eq!(of(local), Trouble::Local);
        }
        let other = io::Error::other("not a regular file");
        assert_eq!(Trouble::of(&other), Trouble::Closed);
    }
}
