//! The plain implementation as a station of `../compare`.

use crate::plain;
use compare::station::{Call, Returned, Station};

pub struct Plain;

impl Station for Plain {
    fn name(&self) -> &'static str {
        "plain Rust"
    }

    fn call(&self, keys: &[u8], call: Call, table: &mut [u8], out: &mut [u8]) -> Returned {
        Returned::plain(match call {
            Call::CheckKeys => plain::check_keys(keys),
            Call::Found { version } => plain::found(keys, version, out),
            Call::Add { archive, version } => plain::add(keys, archive, version, out),
            Call::Retrieve { archive, i } => plain::retrieve(keys, archive, i, out),
            Call::History { archive, address } => plain::history(keys, archive, address, out),
            Call::Back { archive, i, .. } => plain::back(keys, archive, table, i, out),
            Call::BackToMark { archive, name, .. } => plain::back_to_mark(keys, archive, table, name, out),
            Call::SetMark { archive, name, i, .. } => plain::set_mark(keys, archive, table, name, i),
            Call::FindMark { archive, name, .. } => {
                let (number, version) = plain::find_mark(keys, archive, table, name);
                return Returned { number, length: 0, version };
            }
            Call::LongestHistory { n } => plain::longest_history(n, out),
        })
    }
}
