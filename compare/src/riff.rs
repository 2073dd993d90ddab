//! The 44 bytes in front of a wave file's samples: PCM, two channels of 16 bits.

pub fn header(rate: u32, bytes: u32) -> Vec<u8> {
    [
        &b"RIFF"[..],
        &(36 + bytes).to_le_bytes(),
        b"WAVEfmt \x10\0\0\0\x01\0\x02\0",
        &rate.to_le_bytes(),
        &(4 * rate).to_le_bytes(),
        b"\x04\0\x10\0data",
        &bytes.to_le_bytes(),
    ]
    .concat()
}
