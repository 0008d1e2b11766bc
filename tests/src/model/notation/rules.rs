//! Reading a rule's action and its match.

use super::faults::{
    HOST_BITS, NO_ACTION, NO_MATCH, NO_PORT, NO_PROTOCOL, NO_RATE, NO_SIDE, NO_UNIT, RATE_BEYOND,
};
use super::reader::{fault, Reader};
use super::values::{number, number_to, prefix};
use super::{Fault, More};
use crate::model::action::Action::{self, Allow, Deny, DontCare, Gmb};
use crate::model::action::MOST_RATE;
use crate::model::fields::{MOST_PORT, MOST_PROTOCOL};
use crate::model::matches::{Match, Prefix};
use crate::model::record::RawRow;

/// Units of a rate, each a thousand times the one before; the first is kbit/s.
pub const UNITS: [&str; 3] = ["kbit/s", "Mbit/s", "Gbit/s"];
pub const THOUSAND: u64 = 1_000;
/// Protocols with a name.
pub const PROTOCOLS: [(&str, u32); 3] = [("tcp", 6), ("udp", 17), ("icmp", 1)];
const PORT: &str = "port";

impl Reader<'_> {
    pub fn atom(&mut self) -> Result<RawRow, Fault> {
        let action = self.action()?;
        if self.takes("never") {
            return Ok(Match::default().raw(action).emptied());
        }
        if self.takes("any") {
            return Ok(Match::default().raw(action));
        }
        Ok(self.parts()?.raw(action))
    }

    fn action(&mut self) -> Result<Action, Fault> {
        let words = ["allow", "deny", "none", "reserve"];
        Ok(match self.want_one(&words, NO_ACTION)? {
            0 => Allow,
            1 => Deny,
            2 => DontCare,
            _ => Gmb(self.rate()?),
        })
    }

    /// A number and its unit, in kbit/s.
    fn rate(&mut self) -> Result<u32, Fault> {
        let place = self.next().place;
        let number = self.want_value(number, NO_RATE)?;
        let unit = self.want_one(&UNITS, NO_UNIT)?;
        let rate = u64::from(number) * THOUSAND.pow(unit as u32);
        if (1..=u64::from(MOST_RATE)).contains(&rate) {
            Ok(rate as u32)
        } else {
            fault(RATE_BEYOND, place, More::Nothing)
        }
    }

    /// At least one part, in their order.
    fn parts(&mut self) -> Result<Match, Fault> {
        let start = self.next();
        let mut matching = Match::default();
        if self.takes("in") {
            matching.in_port = self.port()?;
        }
        if let Some(protocol) = self.protocol()? {
            matching.protocol = Prefix::exactly(protocol);
        }
        if self.takes("from") {
            (matching.source, matching.source_port) = self.side()?;
        }
        if self.takes("to") {
            (matching.destination, matching.destination_port) = self.side()?;
        }
        if self.next() == start {
            return self.unwanted(NO_MATCH);
        }
        Ok(matching)
    }

    fn port(&mut self) -> Result<Prefix, Fault> {
        let port = self.want_value(|bytes| number_to(bytes, MOST_PORT), NO_PORT)?;
        Ok(Prefix::exactly(port))
    }

    fn protocol(&mut self) -> Result<Option<u32>, Fault> {
        for (name, protocol) in PROTOCOLS {
            if self.takes(name) {
                return Ok(Some(protocol));
            }
        }
        if !self.takes("protocol") {
            return Ok(None);
        }
        let protocol = |bytes: &[u8]| number_to(bytes, MOST_PROTOCOL);
        self.want_value(protocol, NO_PROTOCOL).map(Some)
    }

    /// A prefix, a port, or both.
    fn side(&mut self) -> Result<(Prefix, Prefix), Fault> {
        if self.takes(PORT) {
            return Ok((Prefix::default(), self.port()?));
        }
        let place = self.next().place;
        let address = self.want_value(prefix, NO_SIDE)?;
        let Prefix { value, length } = address;
        if !address.covers(value) {
            let more = More::Prefix {
                address: value,
                length,
            };
            return fault(HOST_BITS, place, more);
        }
        let port = if self.takes(PORT) {
            self.port()?
        } else {
            Prefix::default()
        };
        Ok((address, port))
    }
}
