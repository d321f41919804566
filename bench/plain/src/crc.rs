//! The check word: CRC with polynomial 1021h from FFFFh, byte by byte over a stored table.

const TABLE: [u16; 256] = {
    let mut table = [0u16; 256];
    let mut i = 0;
    while i < 256 {
        let mut word = (i as u16) << 8;
        let mut bit = 0;
        while bit < 8 {
            word = if word & 0x8000 != 0 { word << 1 ^ 0x1021 } else { word << 1 };
            bit += 1;
        }
        table[i] = word;
        i += 1;
    }
    table
};

pub fn check_word(bytes: &[u8]) -> u16 {
    bytes.iter().fold(0xffff, |word, &byte| {
        word << 8 ^ TABLE[usize::from((word >> 8) as u8 ^ byte)]
    })
}

/// Makes the last two bytes of a frame the check word of the others.
pub fn seal(frame: &mut [u8]) {
    if let Some((rest, check)) = frame.split_last_chunk_mut() {
        *check = check_word(rest).to_be_bytes();
    }
}
