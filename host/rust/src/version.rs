//! The version of the crate and of the archive.

use crate::raw;
use core::fmt;

/// A version: major, minor and patch number.
#[derive(Clone, Copy, Debug, PartialEq, Eq, PartialOrd, Ord)]
pub struct Version {
    /// Rises where calls, byte forms or states change, from 1.0.0 on.
    pub major: u8,
    /// Rises where calls come; before 1.0.0 also where they change.
    pub minor: u8,
    /// Rises where neither is so.
    pub patch: u8,
}

/// The version that this crate was written for. [`version`] is that of the archive.
pub const VERSION: Version = Version {
    major: 0,
    minor: 1,
    patch: 0,
};

impl Version {
    /// 65,536 times the major number, 256 times the minor, and the patch.
    pub const fn number(self) -> u32 {
        (self.major as u32) << 16 | (self.minor as u32) << 8 | self.patch as u32
    }

    /// Whether an archive of this version is one for a crate that was written for another: the major
    /// number is the same, and the minor is not below, or before 1.0.0 the same too.
    ///
    /// ```
    /// use rdram::Version;
    /// let version = |major, minor, patch| Version { major, minor, patch };
    /// assert!(version(0, 1, 9).serves(version(0, 1, 2)));
    /// assert!(!version(0, 2, 0).serves(version(0, 1, 0)));
    /// assert!(version(1, 2, 0).serves(version(1, 1, 5)));
    /// assert!(!version(1, 1, 5).serves(version(1, 2, 0)));
    /// ```
    pub const fn serves(self, wanted: Version) -> bool {
        let calls_may_come = self.major > 0 && self.minor > wanted.minor;
        self.major == wanted.major && (self.minor == wanted.minor || calls_may_come)
    }
}

impl fmt::Display for Version {
    fn fmt(&self, f: &mut fmt::Formatter<'_>) -> fmt::Result {
        write!(f, "{}.{}.{}", self.major, self.minor, self.patch)
    }
}

/// The version of the archive that is linked.
///
/// ```
/// assert_eq!(rdram::version(), rdram::VERSION, "archive and crate are of two versions");
/// assert_eq!(rdram::VERSION.to_string(), env!("CARGO_PKG_VERSION"));
/// ```
pub fn version() -> Version {
    // SAFETY: the function takes nothing and reads no memory.
    let number = unsafe { raw::rdram_version() };
    Version {
        major: (number >> 16) as u8,
        minor: (number >> 8) as u8,
        patch: number as u8,
    }
}

/// The archive that is linked is not one for this crate ([`Version::serves`]).
///
/// ```
/// use rdram::{OtherVersion, Version};
/// let archive = Version { major: 9, minor: 8, patch: 7 };
/// let text = OtherVersion { archive }.to_string();
/// assert!(text.starts_with("librdram.a is of version 9.8.7, and the crate rdram of "));
/// ```
#[derive(Clone, Copy, Debug, PartialEq, Eq)]
pub struct OtherVersion {
    /// The version of the archive.
    pub archive: Version,
}

impl fmt::Display for OtherVersion {
    fn fmt(&self, f: &mut fmt::Formatter<'_>) -> fmt::Result {
        write!(
            f,
            "librdram.a is of version {}, and the crate rdram of {VERSION}; \
             take both from one package, and set RDRAM_LIB_DIR to the folder of that archive",
            self.archive
        )
    }
}

impl core::error::Error for OtherVersion {}

/// Tests that the archive that is linked is one for this crate. In a build with debug assertions
/// [`Planner::fresh`](crate::Planner::fresh) and [`Model::fresh`](crate::Model::fresh) do so too.
///
/// # Errors
///
/// [`OtherVersion`], whose text has both versions.
///
/// ```
/// assert_eq!(rdram::version_check(), Ok(()));
/// ```
pub fn version_check() -> Result<(), OtherVersion> {
    let archive = version();
    match archive.serves(VERSION) {
        true => Ok(()),
        false => Err(OtherVersion { archive }),
    }
}

/// Stops a build with debug assertions where the archive is of another version, or has refused to write
/// a fresh state, which it does only for a length that is not its own.
pub(crate) fn debug_check(number: u32) {
    if cfg!(debug_assertions) {
        if let Err(other) = version_check() {
            panic!("{other}");
        }
        assert_eq!(number, 0, "the archive's states have another length");
    }
}
