//! Which versions of the C library this crate may be linked with. The build script has this module
//! too.

/// The version that the crate is written for, as `unftp_version` returns it.
const NEEDED: u32 = 4_000;

/// Whether a library of this version has the calls, structs and numbers of `ffi`: it has the same
/// major and minor number, and is no older.
pub(crate) fn fits(version: u32) -> bool {
    version >= NEEDED && version / 1_000 == NEEDED / 1_000
}

/// A version as text: its three numbers.
pub(crate) fn text(version: u32) -> String {
    format!("{}.{}.{}", version / 1_000_000, version / 1_000 % 1_000, version % 1_000)
}

/// The versions that fit, as text.
pub(crate) fn needed() -> String {
    let next = (NEEDED / 1_000 + 1) * 1_000;
    format!("{} or later, and before {}", text(NEEDED), text(next))
}

#[cfg(test)]
mod tests {
    use super::*;

    #[test]
    fn the_crate_is_written_for_its_own_version() {
        assert_eq!(text(NEEDED), env!("CARGO_PKG_VERSION"));
    }

    #[test]
    fn only_the_same_series_fits() {
        for (version, is_right) in [
            (0, false),
            (NEEDED - 1, false),
            (NEEDED, true),
            (NEEDED + 999, true),
            (NEEDED + 1_000, false),
            (NEEDED + 1_000_000, false),
            (9_009_009, false),
        ] {
            assert_eq!(fits(version), is_right, "{}", text(version));
        }
        assert_eq!(needed(), "0.4.0 or later, and before 0.5.0");
    }
}
