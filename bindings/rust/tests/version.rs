//! The version that the archive tells is the binding's.
use xewumbal::*;

#[test]
fn the_archive_is_of_this_version() {
    assert_eq!(version(), VERSION, "the archive is of version {}, and the binding of version {}", version(), VERSION);
}
