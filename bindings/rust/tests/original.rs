//! What the tests of libunftp's own codec and password ask for.
use unftp_control::{Password, Reply, ReplyCode};

const PASSWORD: &str = "correct horse";

#[test]
fn a_reply_may_have_an_empty_line_between_two_others() {
    let reply = Reply::with_lines(ReplyCode::HELP_MESSAGE, ["Commands:", "", "NOOP QUIT"]);
    let bytes = b"214-Commands:\r\n\r\n214 NOOP QUIT\r\n";
    assert_eq!(reply.to_bytes().as_deref(), Ok(&bytes[..]));
    #[cfg(feature = "tokio-util")]
    {
        use tokio_util::codec::Encoder;
        let mut sent = bytes::BytesMut::new();
        unftp_control::FtpCodec::new().encode(reply, &mut sent).expect("memory is there");
        assert_eq!(sent, &bytes[..]);
    }
}

#[test]
fn display_of_a_password_is_asterisks() {
    assert_eq!(Password::from(PASSWORD).to_string(), "*******");
}

#[test]
fn debug_of_a_password_is_asterisks_between_braces() {
    let debug = format!("{:?}", Password::from(PASSWORD));
    assert_eq!(debug, "Password { bytes: ******* }");
}

#[test]
fn the_bytes_of_a_password_are_given_back() {
    let password = Password::from(PASSWORD);
    assert_eq!(password.as_ref(), PASSWORD.as_bytes());
}
