//! The values that are bytes as the client sent them.
use std::borrow::Cow;
use std::fmt::{self, Debug, Display, Formatter, Write};
use std::ops::Deref;

/// Bytes as the client sent them, in no particular encoding: a name, an account or the path of
/// STAT. They are borrowed or owned, and a slice by `Deref`.
///
/// ```
/// use unftp_control::RawBytes;
///
/// let name = RawBytes::from(b"caf\xe9");
/// assert_eq!(name, b"caf\xe9");
/// assert_eq!(String::from_utf8_lossy(&name), "caf\u{fffd}");
/// assert_eq!(format!("{name:?}"), r#""caf\xe9""#);
/// ```
#[derive(Clone, Default)]
pub struct RawBytes<'a>(Cow<'a, [u8]>);

impl RawBytes<'_> {
    /// The same bytes, copied where they are borrowed.
    pub fn into_owned(self) -> RawBytes<'static> {
        RawBytes(Cow::Owned(self.0.into_owned()))
    }

    /// The bytes as a vector, copied where they are borrowed.
    pub fn into_vec(self) -> Vec<u8> {
        self.0.into_owned()
    }
}

impl<'a> RawBytes<'a> {
    pub(crate) fn of(bytes: Cow<'a, [u8]>) -> RawBytes<'a> {
        RawBytes(bytes)
    }
}

impl Deref for RawBytes<'_> {
    type Target = [u8];

    fn deref(&self) -> &[u8] {
        &self.0
    }
}

impl AsRef<[u8]> for RawBytes<'_> {
    fn as_ref(&self) -> &[u8] {
        &self.0
    }
}

impl<'a, B: AsRef<[u8]> + ?Sized> From<&'a B> for RawBytes<'a> {
    fn from(bytes: &'a B) -> RawBytes<'a> {
        RawBytes(Cow::Borrowed(bytes.as_ref()))
    }
}

impl From<Vec<u8>> for RawBytes<'_> {
    fn from(bytes: Vec<u8>) -> Self {
        RawBytes(Cow::Owned(bytes))
    }
}

/// Takes the vector that the bytes own, without a copy.
#[cfg(feature = "tokio-util")]
impl From<RawBytes<'_>> for bytes::Bytes {
    fn from(bytes: RawBytes<'_>) -> bytes::Bytes {
        bytes.into_vec().into()
    }
}

/// Equality of the bytes, also with a slice, an array, a vector or a text.
impl<B: AsRef<[u8]> + ?Sized> PartialEq<B> for RawBytes<'_> {
    fn eq(&self, other: &B) -> bool {
        *self.0 == *other.as_ref()
    }
}

impl Eq for RawBytes<'_> {}

/// Between double quotes. These, backslashes and what is not printable ASCII are escaped.
impl Debug for RawBytes<'_> {
    fn fmt(&self, f: &mut Formatter<'_>) -> fmt::Result {
        f.write_char('"')?;
        for byte in self.0.iter() {
            match byte {
                b'\'' => f.write_char('\'')?,
                byte => write!(f, "{}", byte.escape_ascii())?,
            }
        }
        f.write_char('"')
    }
}

/// The bytes of a PASS command. No text that is made of it shows a byte of them, nor how many they
/// are.
///
/// They are not wiped when it is dropped, and `==` may take longer for passwords that are alike at
/// their beginning.
///
/// ```
/// use unftp_control::Password;
///
/// let password = Password::from(b"secret");
/// assert_eq!(password.as_bytes(), b"secret");
/// assert_eq!(format!("{password} {password:?}"), "******* Password { bytes: ******* }");
/// ```
#[derive(Clone, PartialEq, Eq)]
pub struct Password<'a>(RawBytes<'a>);

impl<'a> Password<'a> {
    pub(crate) fn of(bytes: Cow<'a, [u8]>) -> Password<'a> {
        Password(RawBytes::of(bytes))
    }
}

impl Password<'_> {
    /// The bytes, which may be none.
    pub fn as_bytes(&self) -> &[u8] {
        &self.0
    }

    /// The same password, copied where it is borrowed.
    pub fn into_owned(self) -> Password<'static> {
        Password(self.0.into_owned())
    }
}

impl AsRef<[u8]> for Password<'_> {
    fn as_ref(&self) -> &[u8] {
        &self.0
    }
}

impl<'a, B: AsRef<[u8]> + ?Sized> From<&'a B> for Password<'a> {
    fn from(bytes: &'a B) -> Password<'a> {
        Password(RawBytes::from(bytes))
    }
}

impl From<Vec<u8>> for Password<'_> {
    fn from(bytes: Vec<u8>) -> Self {
        Password(RawBytes::from(bytes))
    }
}

/// One text for all passwords, under all flags.
impl Debug for Password<'_> {
    fn fmt(&self, f: &mut Formatter<'_>) -> fmt::Result {
        f.write_str("Password { bytes: ******* }")
    }
}

/// One text for all passwords, under all flags.
impl Display for Password<'_> {
    fn fmt(&self, f: &mut Formatter<'_>) -> fmt::Result {
        f.write_str("*******")
    }
}
