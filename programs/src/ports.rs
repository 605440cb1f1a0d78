//! The data ports of control connections.
use std::net::{Ipv4Addr, SocketAddr};
use std::ops::RangeInclusive;
use unftp_control::DataPort;

/// What the options say of passive data connections.
#[derive(Clone, Debug)]
pub struct Passive {
    /// Their ports.
    pub ports: RangeInclusive<u16>,
    /// The address in the reply to PASV, before a translation of addresses.
    pub public_address: Option<Ipv4Addr>,
}

impl Passive {
    /// The data port of a control connection between these addresses.
    pub fn data_port(&self, client: SocketAddr, own: SocketAddr) -> DataPort {
        let data_port = data_port(client, own).with_ports(self.ports.clone());
        match self.public_address {
            Some(address) => data_port.with_public_address(address),
            None => data_port,
        }
    }
}

/// The data port of a control connection between these addresses, on any port. It logs the
/// connections of others.
pub fn data_port(peer: SocketAddr, own: SocketAddr) -> DataPort {
    DataPort::new(peer, own).on_foreign_peer(|peer| {
        tracing::warn!(%peer, "a data connection of another address was closed");
    })
}

/// Two ports with a dash between them.
///
/// # Errors
///
/// Where they are not that, or there is no port from the first to the second.
pub fn port_range(text: &str) -> Result<RangeInclusive<u16>, &'static str> {
    let ports = text.split_once('-').and_then(|(first, last)| {
        let range = first.parse().ok()?..=last.parse().ok()?;
        (!range.is_empty() && *range.start() > 0).then_some(range)
    });
    ports.ok_or("two ports with a dash between them")
}

#[cfg(test)]
mod tests {
    use super::*;

    #[test]
    fn ranges() {
        assert_eq!(port_range("1-65535"), Ok(1..=65535));
        assert_eq!(port_range("21-21"), Ok(21..=21));
        for text in ["0-5", "5-4", "5", "-5", "5-", "1-65536", "a-b"] {
            assert!(port_range(text).is_err(), "{text}");
        }
    }
}
