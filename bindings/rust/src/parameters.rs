//! The parameters that name one of a few choices.

/// The security mechanism that AUTH asks for (RFC 2228, section 3; RFC 4217, section 4). The case
/// of its letters is ignored.
#[derive(Clone, Copy, Debug, PartialEq, Eq, Hash)]
#[non_exhaustive]
pub enum AuthParam {
    /// `SSL`, which is older than the RFC.
    Ssl,
    /// `TLS`.
    Tls,
}

/// The transfer mode that MODE asks for (RFC 959, section 3.4). The letter is in upper case only,
/// as in libunftp: `MODE s` is refused.
#[derive(Clone, Copy, Debug, PartialEq, Eq, Hash)]
pub enum ModeParam {
    /// `S`: the file as a stream of bytes.
    Stream,
    /// `B`: the file as blocks, each with a header.
    Block,
    /// `C`: the file compressed.
    Compressed,
}

/// The option that OPTS sets (RFC 2389, section 4): `UTF8 ON` or `UTF8 OFF`, all in upper case or
/// all in lower case.
#[derive(Clone, Copy, Debug, PartialEq, Eq, Hash)]
#[non_exhaustive]
pub enum Opt {
    /// `UTF8`: whether path names are UTF-8 (RFC 2640).
    Utf8 {
        /// `ON` or `OFF`.
        on: bool,
    },
}

/// The protection of the data channel that PROT asks for (RFC 2228, section 3). The letter is in
/// upper case only, as in libunftp: `PROT p` is refused.
#[derive(Clone, Copy, Debug, PartialEq, Eq, Hash)]
pub enum ProtParam {
    /// `C`: none.
    Clear,
    /// `S`: only integrity.
    Safe,
    /// `E`: only confidentiality.
    Confidential,
    /// `P`: integrity and confidentiality.
    Private,
}

/// The file structure that STRU asks for (RFC 959, section 3.1.2). The letter is in upper case
/// only, as in libunftp: `STRU f` is refused.
#[derive(Clone, Copy, Debug, PartialEq, Eq, Hash)]
pub enum StruParam {
    /// `F`: no inner structure.
    File,
    /// `R`: records.
    Record,
    /// `P`: indexed pages.
    Page,
}
