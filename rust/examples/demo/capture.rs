//! A capture file (pcap) of what goes over the link, for a dissector: each SCTP packet in an IPv4 packet, with the time at which it was sent.

use desqariy::SocketTime;
use std::fs::File;
use std::io;
use std::io::Write;

/// Who sends a packet.
#[derive(Clone, Copy)]
pub enum Side {
    Feeder,
    Heads,
}

const IP_HEADER: usize = 20;
const FEEDER: [u8; 4] = [10, 0, 0, 1];
const HEADS: [u8; 4] = [10, 0, 0, 2];

/// Without a file nothing is kept.
pub struct Capture {
    file: Option<File>,
    packets: u16,
}

impl Capture {
    /// The file's header: pcap 2.4 with microseconds, packets of raw IPv4 (228).
    pub fn new(path: Option<&str>) -> io::Result<Self> {
        let mut file = path.map(File::create).transpose()?;
        if let Some(file) = &mut file {
            for number in [0xa1b2_c3d4, 0x0004_0002, 0, 0, 262_144, 228_u32] {
                file.write_all(&number.to_le_bytes())?;
            }
        }
        Ok(Self { file, packets: 0 })
    }

    pub fn keep(&mut self, now: SocketTime, from: Side, packet: &[u8]) -> io::Result<()> {
        let Some(file) = &mut self.file else { return Ok(()) };
        let microseconds = now.0 / 1_000;
        let length = (IP_HEADER + packet.len()) as u32;
        for number in [(microseconds / 1_000_000) as u32, (microseconds % 1_000_000) as u32, length, length] {
            file.write_all(&number.to_le_bytes())?;
        }
        let [l0, l1] = (length as u16).to_be_bytes();
        let [n0, n1] = self.packets.to_be_bytes();
        let (source, destination) = match from {
            Side::Feeder => (FEEDER, HEADS),
            Side::Heads => (HEADS, FEEDER),
        };
        // version 4 and five words; length; a number; time to live; SCTP; checksum 0; from and to
        file.write_all(&[0x45, 0, l0, l1, n0, n1, 0, 0, 64, 132, 0, 0])?;
        file.write_all(&source)?;
        file.write_all(&destination)?;
        file.write_all(packet)?;
        self.packets = self.packets.wrapping_add(1);
        Ok(())
    }
}
