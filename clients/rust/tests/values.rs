//! Values of every type, as the client and the program write and read them.

mod common;

use common::{unit, Scratch, SOFTWARE};
use regtx_client::{Error, Kind, Refusal, Requests, Value};

/// Values, with the type and the data that the registry's rules give them.
fn samples() -> Vec<(&'static str, Value, &'static str)> {
    vec![
        ("none", Value::none([]), "0 -"),
        ("none_bytes", Value::none([0xff]), "0 ff"),
        ("sz", Value::sz("1.0"), "1 31002e0030000000"),
        ("sz_empty", Value::sz(""), "1 0000"),
        (
            "sz_wide",
            Value::sz("\u{e9}\u{1f600}"),
            "1 e9003dd800de0000",
        ),
        ("sz_line", Value::sz("a\nb"), "1 61000a0062000000"),
        ("expand", Value::expand_sz("%A%"), "2 2500410025000000"),
        ("binary", Value::binary([0, 1, 0xfe]), "3 0001fe"),
        ("dword", Value::dword(0x0102_0304), "4 04030201"),
        (
            "dword_be",
            Value::dword_big_endian(0x0102_0304),
            "5 01020304",
        ),
        (
            "link",
            Value::link(r"\Registry"),
            "6 5c0052006500670069007300740072007900",
        ),
        (
            "multi",
            Value::multi_sz(["a", "bc"]).unwrap(),
            "7 610000006200630000000000",
        ),
        ("multi_empty", Value::multi_sz([]).unwrap(), "7 0000"),
        ("list", Value::new(Kind(8), [1, 2]), "8 0102"),
        (
            "qword",
            Value::qword(0x0102_0304_0506_0708),
            "11 0807060504030201",
        ),
        ("custom", Value::new(Kind(u32::MAX), [7]), "4294967295 07"),
    ]
}

#[test]
fn each_type_is_written_and_read() {
    let scratch = Scratch::new();
    let store = scratch.store();
    let tx = store.transaction(&unit(1)).unwrap();
    for (name, value, _) in samples() {
        tx.set_value(SOFTWARE, name, &value).unwrap();
    }
    tx.commit().unwrap();
    store.close().unwrap();
    let script: String = samples()
        .iter()
        .map(|(name, ..)| format!("get 0:Software {name}\n"))
        .collect();
    let wanted: Vec<String> = samples()
        .iter()
        .map(|(_, _, printed)| format!("value {printed}"))
        .collect();
    assert_eq!(scratch.replies(&script), wanted);
    let store = scratch.open();
    for (name, value, _) in samples() {
        assert_eq!(store.get_value(SOFTWARE, name).unwrap(), value, "{name}");
    }
    store.close().unwrap();
}

#[test]
fn what_the_program_writes_is_read() {
    let scratch = Scratch::new();
    scratch.store().close().unwrap();
    for words in [
        ["sz", "sz", "1 2"],
        ["expand", "expand", "%A%"],
        ["dword", "dword", "4294967295"],
        ["qword", "qword", "0x102030405060708"],
        ["multi", "multi", r"a\0bc"],
        ["none", "hex(0)", "ff"],
        ["link", "hex(6)", "61,00"],
        ["big", "hex(5)", "00,00,01,00"],
    ] {
        let [name, kind, text] = words;
        let told = scratch.printed(&["set", "store", "0:Software", name, kind, text]);
        assert!(told.starts_with("committed "), "{told}");
    }
    let store = scratch.open();
    let get = |name| store.get_value(SOFTWARE, name).unwrap();
    assert_eq!(get("sz").to_text().unwrap(), "1 2");
    assert_eq!(get("expand").to_text().unwrap(), "%A%");
    assert_eq!(get("dword").to_u32().unwrap(), u32::MAX);
    assert_eq!(get("qword").to_u64().unwrap(), 0x0102_0304_0506_0708);
    assert_eq!(get("multi").to_texts().unwrap(), ["a", "bc"]);
    assert_eq!(get("none"), Value::none([0xff]));
    assert_eq!(get("link").to_text().unwrap(), "a");
    assert_eq!(get("big").to_u32().unwrap(), 256);
    store.close().unwrap();
}

#[test]
fn readers_ask_for_their_type_and_form() {
    let (sz, multi) = (
        |data: &[u8]| Value::new(Kind::REG_SZ, data),
        Kind::REG_MULTI_SZ,
    );
    assert_eq!(sz(&[0x61, 0]).to_text().unwrap(), "a");
    assert_eq!(sz(&[]).to_text().unwrap(), "");
    assert_eq!(sz(&[0x61]).to_text(), None);
    assert_eq!(sz(&[0x00, 0xd8]).to_text(), None);
    assert_eq!(Value::binary([0x61, 0]).to_text(), None);
    assert_eq!(sz(&[1, 2, 3, 4]).to_u32(), None);
    assert_eq!(Value::new(Kind::REG_DWORD, [1, 2, 3]).to_u32(), None);
    assert_eq!(Value::dword(1).to_u64(), None);
    assert_eq!(Value::qword(1).to_u32(), None);
    assert_eq!(Value::new(multi, [0x61, 0]).to_texts().unwrap(), ["a"]);
    assert_eq!(Value::new(multi, [0, 0, 0, 0]).to_texts().unwrap(), [""; 0]);
    assert_eq!(Value::new(multi, [0x61, 0, 0]).to_texts(), None);
    assert_eq!(Value::sz("a").to_texts(), None);
    assert_eq!(Value::sz("a\0").to_text().unwrap(), "a\0");
    assert_eq!(Value::multi_sz(["a", ""]), None);
    assert_eq!(Value::multi_sz(["a\0b"]), None);
}

#[test]
fn data_has_a_mebibyte_at_most() {
    let scratch = Scratch::new();
    let store = scratch.store();
    let most = Value::binary(vec![0xab; 1_048_576]);
    store.set_value(SOFTWARE, "v", &most).unwrap();
    let refused = store.set_value(SOFTWARE, "v", &Value::binary(vec![0; 1_048_577]));
    assert!(matches!(refused, Err(Error::Refused(Refusal::TooLarge, _))));
    assert_eq!(store.get_value(SOFTWARE, "v").unwrap(), most);
    store.close().unwrap();
}

#[test]
fn types_have_names() {
    assert_eq!(
        Kind::REG_DWORD_BIG_ENDIAN.to_string(),
        "REG_DWORD_BIG_ENDIAN"
    );
    assert_eq!(Kind(8).to_string(), "8");
}
