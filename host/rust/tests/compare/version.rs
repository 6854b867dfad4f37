//! The version of the crate and of the archive.

use rdram::{version, version_check, OtherVersion, Version, VERSION};

#[test]
fn crate_and_archive() {
    assert_eq!(version_check().map_err(|other| other.to_string()), Ok(()));
    assert_eq!(version(), VERSION, "archive and crate");
    assert_eq!(VERSION.to_string(), env!("CARGO_PKG_VERSION"));
    // SAFETY: the function takes nothing and reads no memory.
    assert_eq!(unsafe { rdram::raw::rdram_version() }, VERSION.number());
}

#[test]
fn what_differs_is_said() {
    let Version { major, minor, .. } = VERSION;
    let archive = Version {
        major: major + 1,
        minor: minor + 2,
        patch: 33,
    };
    assert!(!archive.serves(VERSION));
    let text = OtherVersion { archive }.to_string();
    assert!(text.contains(&format!("librdram.a is of version {archive}, ")));
    assert!(text.contains(&format!("the crate rdram of {VERSION}; ")));
}

/// An archive serves a crate where nothing that the crate calls has gone or changed.
#[test]
fn which_serve() {
    let version = |(major, minor, patch)| Version {
        major,
        minor,
        patch,
    };
    let ends = [0, 1, 2, 255];
    for (a, b) in ends.into_iter().flat_map(|a| ends.map(|b| (a, b))) {
        let serves = |archive, of| version(archive).serves(version(of));
        assert!(serves((a, b, 0), (a, b, 255)) && serves((a, b, 255), (a, b, 0)));
        assert_eq!(serves((a, b, 3), (b, a, 3)), a == b);
        assert_eq!(serves((0, a, 0), (0, b, 0)), a == b);
        assert_eq!(serves((1, a, 0), (1, b, 0)), a >= b);
    }
}
