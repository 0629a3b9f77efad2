//! CRC-32 values that others have published: RFC-style test strings, catalogues of CRC algorithms,
//! AUTOSAR's table.

pub const PUBLISHED: [(&[u8], u32); 24] = [
    (b"123456789", 0xCBF4_3926),
    (b"", 0x0000_0000),
    (b"a", 0xE8B7_BE43),
    (b"abc", 0x3524_41C2),
    (b"message digest", 0x2015_9D7F),
    (b"abcdefghijklmnopqrstuvwxyz", 0x4C27_50BD),
    (b"ABCDEFGHIJKLMNOPQRSTUVWXYZabcdefghijklmnopqrstuvwxyz0123456789", 0x1FC2_E6D2),
    (
        b"12345678901234567890123456789012345678901234567890123456789012345678901234567890",
        0x7CA9_4A72,
    ),
    (b"The quick brown fox jumps over the lazy dog", 0x414F_A339),
    (b"Test vector from febooti.com", 0x0C87_7F61),
    (b"various CRC algorithms input data", 0x9BD3_66AE),
    (b"hello world", 0x0D4A_1185),
    (&[0x00], 0xD202_EF8D),
    (&[0x00; 4], 0x2144_DF1C),
    (&[0xFF; 4], 0xFFFF_FFFF),
    (&[0xF2, 0x01, 0x83], 0x24AB_9D77),
    (&[0x0F, 0xAA, 0x00, 0x55], 0xB6C9_B287),
    (&[0x00, 0xFF, 0x55, 0x11], 0x32A0_6212),
    (&[0x33, 0x22, 0x55, 0xAA, 0xBB, 0xCC, 0xDD, 0xEE, 0xFF], 0xB0AE_863D),
    (&[0x92, 0x6B, 0x55], 0x9CDE_A29B),
    (&[0x00; 32], 0x190A_55AD),
    (&[0xFF; 32], 0xFF6C_AB0B),
    (
        &[
            0, 1, 2, 3, 4, 5, 6, 7, 8, 9, 10, 11, 12, 13, 14, 15, 16, 17, 18, 19, 20, 21, 22, 23,
            24, 25, 26, 27, 28, 29, 30, 31,
        ],
        0x9126_7E8A,
    ),
    (
        &[
            31, 30, 29, 28, 27, 26, 25, 24, 23, 22, 21, 20, 19, 18, 17, 16, 15, 14, 13, 12, 11, 10,
            9, 8, 7, 6, 5, 4, 3, 2, 1, 0,
        ],
        0x9AB0_EF72,
    ),
];
