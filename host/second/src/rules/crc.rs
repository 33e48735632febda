/// CRC-32, D3. The register holds a polynomial with x^31 in its top bit.
#[derive(Clone, Copy, Debug)]
pub struct CrcRules {
    /// x^32 left out.
    pub polynomial: u32,
    pub start: u32,
    pub final_xor: u32,
    pub bits_per_byte: u32,
    /// "Reflected", in: the lowest bit of a byte enters first.
    pub low_bit_first: bool,
    /// "Reflected", out: x^31 of the register is the lowest bit of the answer.
    pub answer_reversed: bool,
}

pub const CRC: CrcRules = CrcRules {
    polynomial: 0x04C1_1DB7,
    start: 0xFFFF_FFFF,
    final_xor: 0xFFFF_FFFF,
    bits_per_byte: 8,
    low_bit_first: true,
    answer_reversed: true,
};
