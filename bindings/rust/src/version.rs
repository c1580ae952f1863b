//! Which version of the library a program is linked with.

use crate::raw;
use core::fmt;

/// A version of the library. Versions are in the order in which they were made.
///
/// ```
/// use commonware_proved::Version;
///
/// let (older, newer) = (Version::new(1, 9, 3), Version::new(1, 10, 0));
/// assert!(older < newer);
/// assert_eq!(newer.to_string(), "1.10.0");
/// ```
#[derive(Clone, Copy, Debug, PartialEq, Eq, PartialOrd, Ord, Hash)]
#[non_exhaustive]
pub struct Version {
    /// The number that rises where a call has another meaning than before, or is gone.
    pub major: u32,
    /// The number that rises where there is a new call.
    pub minor: u32,
    /// The number that rises where neither is so.
    pub patch: u32,
}

impl Version {
    /// Returns the version of these numbers.
    ///
    /// ```
    /// # use commonware_proved::Version;
    /// assert_eq!(Version::new(1, 2, 3).minor, 2);
    /// ```
    #[must_use]
    pub const fn new(major: u32, minor: u32, patch: u32) -> Version {
        Version {
            major,
            minor,
            patch,
        }
    }
}

impl fmt::Display for Version {
    fn fmt(&self, f: &mut fmt::Formatter<'_>) -> fmt::Result {
        write!(f, "{}.{}.{}", self.major, self.minor, self.patch)
    }
}

/// Returns the version of the library that the program is linked with. Its major version is that of
/// this crate, which the build script sees to.
///
/// ```
/// use commonware_proved::version;
///
/// println!("commonware {}", version());
/// assert_eq!(version().major, 2);
/// ```
#[must_use]
pub fn version() -> Version {
    let number = raw::commonware_version();
    Version::new(number / 1_000_000, number / 1_000 % 1_000, number % 1_000)
}
