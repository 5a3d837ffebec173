//! Values by their bytes, as the registry's rules have them.

use regtx_hive::{Kind, Name, Value};

fn bytes(digits: &str) -> Vec<u8> {
    let pair = |at| u8::from_str_radix(&digits[at..at + 2], 16).expect("digits");
    (0..digits.len()).step_by(2).map(pair).collect()
}

#[test]
fn makers_write_the_bytes_of_their_type() {
    for (value, kind, digits) in [
        (Value::sz(""), Kind::REG_SZ, "0000"),
        (Value::sz("1.0"), Kind(1), "31002e0030000000"),
        (
            Value::sz("\u{e4}\u{20ac}\u{1d11e}"),
            Kind(1),
            "e400ac2034d81edd0000",
        ),
        (Value::expand_sz("%A%"), Kind(2), "2500410025000000"),
        (Value::binary([1, 2]), Kind(3), "0102"),
        (Value::dword(42), Kind(4), "2a000000"),
        (Value::dword_big_endian(42), Kind(5), "0000002a"),
        (Value::multi_sz([]), Kind(7), "0000"),
        (
            Value::multi_sz(["a", "b c"]),
            Kind(7),
            "6100000062002000630000000000",
        ),
        (
            Value::qword(0x0123_4567_89ab_cdef),
            Kind(11),
            "efcdab8967452301",
        ),
    ] {
        assert_eq!(value, Value::new(kind, bytes(digits)));
    }
}

#[test]
fn texts_are_read_with_or_without_zeros_at_their_end() {
    let text = |kind, digits| Value::new(Kind(kind), bytes(digits)).to_text();
    assert_eq!(text(1, "61000000").as_deref(), Some("a"));
    assert_eq!(text(2, "6100").as_deref(), Some("a"));
    assert_eq!(text(6, "").as_deref(), Some(""));
    assert_eq!(text(1, "6100000062000000").as_deref(), Some("a\0b"));
    // half a unit, half a pair, and another type
    assert_eq!(
        (text(1, "61"), text(1, "34d80000"), text(3, "6100")),
        (None, None, None)
    );
    let texts = |digits| Value::new(Kind::REG_MULTI_SZ, bytes(digits)).to_texts();
    for (digits, wanted) in [
        ("", vec![]),
        ("0000", vec![]),
        ("00000000", vec![""]),
        ("6100", vec!["a"]),
        ("610000000000", vec!["a"]),
        ("61000000000062000000", vec!["a", "", "b"]),
    ] {
        assert_eq!(
            texts(digits),
            Some(wanted.into_iter().map(str::to_owned).collect())
        );
    }
    assert_eq!((texts("61"), Value::sz("a").to_texts()), (None, None));
}

#[test]
fn numbers_are_read_in_their_length_alone() {
    assert_eq!(Value::dword(7).to_u32(), Some(7));
    assert_eq!(Value::dword_big_endian(7).to_u32(), Some(7));
    assert_eq!(Value::qword(7).to_u64(), Some(7));
    assert_eq!(
        (Value::qword(7).to_u32(), Value::dword(7).to_u64()),
        (None, None)
    );
    assert_eq!(Value::new(Kind::REG_DWORD, [1, 2, 3]).to_u32(), None);
}

#[test]
fn names_keep_what_is_no_text() {
    let half = Name::from(vec![0x61, 0xd834]);
    assert_eq!(half.to_text(), None);
    assert_eq!(half.to_string(), "a\u{fffd}");
    assert_eq!(format!("{half:?}"), r#""a\u{d834}""#);
    assert!(half.is_same(&[0x41, 0xd834][..]) && !half.is_same("a"));
    // letters past ASCII aren't folded
    assert!(Name::from("az{").is_same("AZ{") && !Name::from("\u{e4}").is_same("\u{c4}"));
    assert_eq!(Name::from("b").below(&Name::from("a")), r"a\b");
    assert_eq!(Name::from("b").below(&Name::default()), "b");
    assert_eq!(Kind(8).to_string(), "8");
    assert_eq!(format!("{:>9}", Kind::REG_SZ), "   REG_SZ");
}
