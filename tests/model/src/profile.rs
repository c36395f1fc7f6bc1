//! The profile and its text form.

use crate::limits::{Limits, SETS};

#[derive(Clone, Debug, PartialEq, Eq)]
pub struct Profile {
    pub sgsn: [u8; 4],
    /// The sets of limits that a fresh node has, from number 1 on.
    pub limits: Vec<Limits>,
    pub offset: i32,
    pub node_id: Vec<u8>,
}

impl Profile {
    /// "SGSN address (4 octets); .. offset from universal time −720..840
    /// minutes; node ID of 0..20 characters 0x20..0x7E"; and W6: "A fresh node
    /// is given all it has, 1 to 8 numbered from 1"
    pub fn in_range(&self) -> bool {
        (1..=SETS).contains(&self.limits.len())
            && self.limits.iter().all(Limits::in_range)
            && (-720..=840).contains(&self.offset)
            && self.node_id.len() <= 20
            && self.node_id.iter().all(|c| (0x20..=0x7E).contains(c))
    }

    pub fn text(&self) -> Vec<u8> {
        let [a, b, c, d] = self.sgsn;
        let mut text = format!("sgsn {a}.{b}.{c}.{d}\n");
        for Limits { volume, time, changes } in &self.limits {
            text += &format!("limits {volume} {time} {changes}\n");
        }
        text += &format!("offset {}\nnode-id", self.offset);
        let mut text = text.into_bytes();
        if !self.node_id.is_empty() {
            text.push(b' ');
            text.extend_from_slice(&self.node_id);
        }
        text.push(b'\n');
        text
    }

    /// Nothing for a text that is not exactly the form above, or out of range.
    pub fn read(text: &[u8]) -> Option<Profile> {
        let lines: Vec<&[u8]> = text.split(|c| *c == b'\n').collect();
        // the sets' lines are those that three others leave; after the last
        // line feed there is nothing
        let sets = lines.len().checked_sub(4)?;
        let value = |line: usize, name: &str| -> Option<&str> {
            let line = std::str::from_utf8(lines[line]).ok()?;
            line.strip_prefix(name)
        };
        let parts: Vec<u8> =
            value(0, "sgsn ")?.split('.').map(|p| p.parse().ok()).collect::<Option<_>>()?;
        let profile = Profile {
            sgsn: parts.try_into().ok()?,
            limits: (1..=sets).map(|at| limits(value(at, "limits ")?)).collect::<Option<_>>()?,
            offset: value(sets + 1, "offset ")?.parse().ok()?,
            node_id: match value(sets + 2, "node-id")? {
                "" => Vec::new(),
                rest => rest.strip_prefix(' ')?.as_bytes().to_vec(),
            },
        };
        // Leading zeros, plus signs and the like fall here.
        (profile.in_range() && profile.text() == text).then_some(profile)
    }
}

/// "three numbers, one space before each"
fn limits(value: &str) -> Option<Limits> {
    let numbers: Vec<&str> = value.split(' ').collect();
    let [volume, time, changes] = numbers[..] else { return None };
    Some(Limits {
        volume: volume.parse().ok()?,
        time: time.parse().ok()?,
        changes: changes.parse().ok()?,
    })
}
