//! The other parts of an event: QoS, IMSI, volumes.

use crate::run::Run;
use charging_model::event::{Name, Qos, Start, QOS_HIGHEST};

impl Run {
    pub fn qos(&mut self) -> Qos {
        let mut qos = [0; 5];
        for (value, most) in qos.iter_mut().zip(QOS_HIGHEST) {
            *value = match self.random.below(3) {
                0 => 0,
                1 => most,
                _ => self.random.between(0, most.into()) as u8,
            };
        }
        qos
    }

    pub fn imsi(&mut self, digits: usize) -> [u8; 8] {
        let mut imsi = [0xFF; 8];
        for half in 0..digits.min(16) {
            let digit = self.random.below(10) as u8;
            let octet = &mut imsi[half / 2];
            *octet = if half % 2 == 0 { *octet & 0xF0 | digit } else { *octet & 15 | digit << 4 };
        }
        imsi
    }

    pub fn start(&mut self) -> Start {
        let digits = match self.random.below(3) {
            0 => self.random.pick(&[6, 7, 14, 15]),
            _ => self.random.between(6, 15) as usize,
        };
        let imsi = match self.attached_imsi() {
            Some(imsi) if self.random.percent(20) => imsi,
            _ => self.imsi(digits),
        };
        let length = match self.random.below(4) {
            0 => self.random.pick(&[1, 2, 62, 63]),
            _ => self.random.between(1, 63) as usize,
        };
        let apn = match self.apn_again() {
            Some(apn) if self.random.percent(10) => apn,
            _ => self.apn(length),
        };
        Start {
            flags: self.random.below(4) as u8,
            imsi,
            pdp_type: [self.random.octet(), self.random.octet()],
            address: [self.random.octet(), self.random.octet(), 0, self.random.octet()],
            qos: self.qos(),
            set: self.only_set.unwrap_or_else(|| self.some_set()),
            apn,
        }
    }

    /// How many octets more meet the volume limit.
    pub fn volume_left(&self, name: Name) -> u64 {
        let context = self.context(name);
        context.limits.volume - context.record_volume()
    }

    /// Two volumes, often such that the limit is just met or just missed.
    pub fn volumes(&mut self, left: u64) -> (u32, u32) {
        let most = u64::from(u32::MAX);
        let sum = match self.random.below(10) {
            0 => 0,
            1 | 2 => left,
            3 | 4 => left - 1,
            5 => left + 1,
            6 => most * 2,
            7 => left / 2,
            8 => self.random.sized(most),
            _ => self.random.below(left.max(2)),
        }
        .min(most * 2);
        let lowest = sum.saturating_sub(most);
        let highest = sum.min(most);
        let uplink = match self.random.below(4) {
            0 => lowest,
            1 => highest,
            _ => self.random.between(lowest, highest),
        };
        (uplink as u32, (sum - uplink) as u32)
    }
}
