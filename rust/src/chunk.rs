//! Chunks on the wire: fragments as bytes, and back.

use crate::ffi;
use crate::fragment;
use crate::fragment::Data;
use crate::fragment::DataToSend;
use crate::ids::Tsn;
use crate::limits::CHUNK_WORDS;
use crate::limits::OUT_WORDS;
use crate::refusal::Refusal;

/// The chunk that carries a fragment.
#[derive(Clone, Copy, Debug, Eq, Hash, PartialEq)]
#[repr(u8)]
pub enum ChunkKind {
    /// DATA (RFC 9260): of the counters it carries the SSN alone.
    Data = 0,
    /// I-DATA (RFC 8260): it carries the MID, the protocol identifier on a first fragment and the FSN on others.
    IData = 1,
}

/// A chunk that was read. The payload is borrowed from the bytes read.
#[derive(Clone, Copy, Debug, Eq, PartialEq)]
pub struct Chunk<'a> {
    /// DATA or I-DATA.
    pub kind: ChunkKind,
    /// Its transmission sequence number.
    pub tsn: Tsn,
    /// The fragment. What the chunk does not carry is 0: message id, retransmissions and expiry, the lifecycle id (none); the MID and the
    /// FSN of DATA; the SSN of I-DATA, and its FSN on a first fragment or its protocol identifier on others.
    pub fragment: DataToSend<&'a [u8]>,
}

/// Writes a fragment as a chunk to the output's start, with zeros up to a multiple of 4 bytes, and answers how many bytes it wrote. The rest
/// of the output stays as it was.
///
/// # Errors
///
/// [`Refusal::ChunkPayloadWrong`], [`Refusal::ChunkOutputShort`].
#[inline]
pub fn write_chunk<P: AsRef<[u8]>>(
    output: &mut [u8],
    kind: ChunkKind,
    tsn: Tsn,
    data: &Data<P>,
) -> Result<usize, Refusal> {
    let (number, written) = ffi::write_chunk(output, kind, tsn, data);
    Refusal::judge(number)?;
    Ok(written as usize)
}

/// The chunk that the bytes are: one chunk with its payload and its padding, of any value, and nothing behind it. Flags other than the three
/// marks and the reserved bits are not looked at.
///
/// # Errors
///
/// [`Refusal::ChunkWrong`].
#[inline]
pub fn read_chunk(bytes: &[u8]) -> Result<Chunk<'_>, Refusal> {
    let mut out = [0; OUT_WORDS];
    let mut chunk = [0; CHUNK_WORDS];
    Refusal::judge(ffi::read_chunk(bytes, &mut out, &mut chunk))?;
    let [kind, tsn, at] = chunk;
    let payload = &bytes[at as usize..][..fragment::length(&out)];
    Ok(Chunk {
        kind: if kind == 0 { ChunkKind::Data } else { ChunkKind::IData },
        tsn: Tsn(tsn as u32),
        fragment: fragment::told(&out, payload),
    })
}
