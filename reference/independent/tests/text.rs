use independent::text;

#[test]
fn places_of_the_first_bad_byte() {
    let ascii = [0x41; 127];
    let cases: [(&[u8], Result<usize, usize>); 21] = [
        (b"", Ok(0)),
        ("aé€😀".as_bytes(), Ok(4)),
        (&[0xed, 0xa0, 0x80], Err(1)),
        (&[0xe2, 0x82, 0x41], Err(2)),
        (&[0xc0, 0x80], Err(0)),
        (&[0xf4, 0x90, 0x80, 0x80], Err(1)),
        (&[0xf4, 0x8f, 0xbf, 0xbf], Ok(1)),
        (&[0x41, 0xe2, 0x82], Err(3)),
        (&[0x41, 0xf0], Err(2)),
        (&[0x41, 0x80], Err(1)),
        (&[0xe0, 0x9f, 0xbf], Err(1)),
        (&[0xf0, 0x8f, 0xbf, 0xbf], Err(1)),
        (&[0x7f], Ok(1)),
        (&[0x80], Err(0)),
        (&ascii[..64], Ok(64)),
        (&[&ascii[..63], &[0x80]].concat(), Err(63)),
        (&[&ascii[..64], &[0xc3]].concat(), Err(65)),
        (&[&ascii[..64], &[0xc3, 0xa5]].concat(), Ok(65)),
        (
            &[&ascii[..63], &[0xc3, 0xa5], &[0x42; 64]].concat(),
            Ok(128),
        ),
        (&[&[0xe2, 0x82], &ascii[..64]].concat(), Err(2)),
        (&[&ascii[..127], &[0xff]].concat(), Err(127)),
    ];
    for (bytes, result) in cases {
        assert_eq!(text(bytes), result, "{bytes:02x?}");
    }
}

/// The place, from the standard library: the first byte with which the text
/// before it becomes one that no tail can mend.
fn by_the_standard_library(bytes: &[u8]) -> Result<usize, usize> {
    if let Ok(text) = std::str::from_utf8(bytes) {
        return Ok(text.chars().count());
    }
    let beyond_mending = |place: &usize| {
        std::str::from_utf8(&bytes[..=*place]).is_err_and(|error| error.error_len().is_some())
    };
    Err((0..bytes.len()).find(beyond_mending).unwrap_or(bytes.len()))
}

#[test]
fn agrees_with_the_standard_library() {
    let bounds = [
        0x00, 0x7f, 0x80, 0x8f, 0x90, 0x9f, 0xa0, 0xbf, 0xc0, 0xc1, 0xc2, 0xdf, 0xe0, 0xe1, 0xec,
        0xed, 0xee, 0xef, 0xf0, 0xf1, 0xf3, 0xf4, 0xf5, 0xff,
    ];
    for first in 0..=255 {
        for second in 0..=255 {
            let bytes = [first, second];
            assert_eq!(
                text(&bytes),
                by_the_standard_library(&bytes),
                "{bytes:02x?}"
            );
        }
        for second in bounds {
            for third in bounds {
                for fourth in bounds {
                    let bytes = [first, second, third, fourth];
                    let expected = by_the_standard_library(&bytes);
                    assert_eq!(text(&bytes), expected, "{bytes:02x?}");
                }
            }
        }
    }
}
