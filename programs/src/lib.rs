//! What the programs share: data ports, a stream that may turn to TLS, a listener with limits and a
//! clean end, a log that nobody waits for, and what stands between clients and a server.

mod certificate;
pub mod identity;
pub mod listening;
pub mod log;
pub mod options;
pub mod ports;
pub mod relay;
pub mod server_tls;
pub mod stream;
pub mod telnet;
pub mod tls;
pub mod tls_sessions;
