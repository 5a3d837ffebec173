//! Files worked by hand from the grammar, each with its statements and its fault as text.
use reg_file::{Statement, parse};
use std::alloc::Global;
use std::fmt::Write;
use std::test::Fail;

const HEADER: &str = "Windows Registry Editor Version 5.00\n";

#[test]
fn statements_are_those_of_the_file(rt: HostRuntime) -> Result<(), Fail> {
    let alloc = rt.alloc();
    let cases: [(&str, &str); 10] = [
        ("", ""),
        (
            "[H\\A]\n@=\"d\"\n\"p\\\\q\"=\"\\\"x\"\n\"e\"=\"\"\n\"n\"=dword:2A",
            "2 create H\\A|3 set  1 64000000|4 set p\\q 1 220078000000|5 set e 1 0000|6 set n 4 2a000000|",
        ),
        (
            "[h\\a b]\n\"b\"=hex:\n\"@\"=hex(ffff0012):01",
            "2 create h\\a b|3 set b 3 |4 set @ 4294901778 01|",
        ),
        (
            " [A] \t\r\n\"x\" = hex(2):41,00, \\ \n  00,\\\r\n00\n; C:\\\n\"y\"=\"z\"\r",
            "2 create A|3 set x 2 41000000|7 set y 1 7a000000|",
        ),
        (
            "[H\\]\n[-H\\A\\]\n\n[]\n[-]\n[a]]",
            "2 create H|3 delete H\\A|5 create |6 delete |7 create a]|",
        ),
        (
            "[A]\n\"v\"=-\n\"t\"=\"a\r\nb\"\n@ =\tdword:00000001 \n",
            "2 create A|3 unset v|4 set t 1 61000d000a0062000000|6 set  4 01000000|",
        ),
        ("[A]\n\"v\"=\"a\nb", "2 create A|line 3: not understood|"),
        (
            "[A]\n\"v\"=hex:01,\\\n\\\n",
            "2 create A|line 3: not understood|",
        ),
        (
            "[A;B] ; c\r\n\"v\"=\"a;b\";c\n\"w\"=dword:1\t;\n\"x\"=hex:01,\\ ; c\n 02;c\n\"y\"=hex: ; c\n\"z\"=- ;-",
            "2 create A;B|3 set v 1 61003b0062000000|4 set w 4 01000000|5 set x 3 0102|7 set y 3 |8 unset z|",
        ),
        (
            "[A];x]\n[B] ; [C]\n[-D];\n[E] F",
            "2 create A];x|3 create B] ; [C|4 delete D|line 5: not understood|",
        ),
    ];
    for (body, wanted) in cases {
        let file = format!(in alloc; "{HEADER}{body}")?;
        assert!(&rt; is_shown(alloc, file.as_bytes(), wanted)?);
    }
    Ok(())
}

#[test]
fn a_fault_is_told_where_it_stands(rt: HostRuntime) -> Result<(), Fail> {
    let alloc = rt.alloc();
    let cases: [(&[u8], &str); 15] = [
        (b"", "line 1: no header|"),
        (b"REGEDIT5\n", "line 1: no header|"),
        (b"\xff\xfeR", "line 1: not text|"),
        (
            b"Windows Registry Editor Version 5.00\n[A]\n\"w\"=\"\xe4\"",
            "2 create A|line 3: not text|",
        ),
        (b"\xef\xbb\xbf REGEDIT4\r\n@=\"x\"", "line 2: no key|"),
        (
            b"REGEDIT4\n[A]\n[-B]\n\"v\"=-",
            "2 create A|3 delete B|line 4: no key|",
        ),
        (
            b"REGEDIT4\n[A]\n\"v\"=\"a\\nb\"",
            "2 create A|line 3: not understood|",
        ),
        (
            b"REGEDIT4\n[A]\n\"v\"=hex:1,2",
            "2 create A|line 3: not understood|",
        ),
        (
            b"REGEDIT4\n[A]\n\"v\"=hex:01,",
            "2 create A|line 3: not understood|",
        ),
        (
            b"REGEDIT4\n[A]\n\"v\"=hex:01, ; c",
            "2 create A|line 3: not understood|",
        ),
        (
            b"REGEDIT4\n[A]\n\"v\"=\"a\" b ; c",
            "2 create A|line 3: not understood|",
        ),
        (b"REGEDIT4 ; c\n[A]", "line 1: no header|"),
        (
            b"Windows Registry Editor Version 5.00\n[A]\n\"v\"=hex:1,\\\n\xff\n",
            "2 create A|line 3: not text|",
        ),
        (
            b"Windows Registry Editor Version 5.00\n[A]\n\"v\"=hex:x\\\n\xff\n",
            "2 create A|line 3: not understood|",
        ),
        (
            b"REGEDIT4\n[A]\n\"v\"=dword:123456789",
            "2 create A|line 3: not understood|",
        ),
    ];
    for (file, wanted) in cases {
        assert!(&rt; is_shown(alloc, file, wanted)?);
    }
    Ok(())
}

#[test]
fn the_old_form_is_text_in_a_code_page(rt: HostRuntime) -> Result<(), Fail> {
    let alloc = rt.alloc();
    let cases: [(&[u8], &str); 5] = [
        (
            b"REGEDIT4\n[A]\n\"w\"=\"a\nb\x80\x81\x9f\xc3\xa4\"",
            "2 create A|3 set w 1 61000a006200ac2081007801c300a4000000|",
        ),
        (
            b" REGEDIT4 \r\n[\xe4]\r\n\"\x8c\"=-\r\n",
            "2 create \u{e4}|3 unset \u{152}|",
        ),
        (
            b"REGEDIT4\n[A]\n\"w\"=hex(7):61,00,\\\n80,00,00\n\"x\"=hex(1):\n\"y\"=hex(2):e4\n\"z\"=hex:80\n\"q\"=hex(b):80",
            "2 create A|3 set w 7 61000000ac2000000000|5 set x 1 |6 set y 2 e400|7 set z 3 80|8 set q 11 80|",
        ),
        (
            b"\xef\xbb\xbfREGEDIT4\n[A]\n\"w\"=\"\xc3\xa4\"\n\"x\"=hex(2):80",
            "2 create A|3 set w 1 e4000000|4 set x 2 ac20|",
        ),
        (
            b"Windows Registry Editor Version 5.00\n[A]\n\"w\"=\"\xc3\xa4\"\n\"x\"=hex(2):80",
            "2 create A|3 set w 1 e4000000|4 set x 2 80|",
        ),
    ];
    for (file, wanted) in cases {
        assert!(&rt; is_shown(alloc, file, wanted)?);
    }
    Ok(())
}

#[test]
fn units_stand_as_they_are_in_utf16(rt: HostRuntime) -> Result<(), Fail> {
    let alloc = rt.alloc();
    let text = "REGEDIT4\n[A]\n\"v\"=\"d\r\n\"";
    let mut file = Vec::new(alloc);
    file.extend_from_slice(&[0xff, 0xfe])?;
    for unit in text.encode_utf16() {
        file.extend_from_slice(&unit.to_le_bytes())?;
    }
    let got = shown(alloc, &file)?;
    assert!(&rt;
        got.as_str() == "2 create A|3 set v 1 64000d000a000000|",
        "{got}"
    );
    Ok(())
}

fn is_shown(alloc: Global, bytes: &[u8], wanted: &str) -> Result<bool, Fail> {
    let text = shown(alloc, bytes)?;
    Ok(text.as_str() == wanted)
}

// the statements and the fault of a file, each with a bar behind it
fn shown(alloc: Global, bytes: &[u8]) -> Result<String, Fail> {
    let file = parse(alloc, bytes)?;
    let mut text = String::new(alloc);
    for numbered in file.statements.as_slice() {
        write!(text, "{} ", numbered.line)?;
        show(&mut text, &numbered.statement)?;
        write!(text, "|")?;
    }
    if let Some(fault) = file.fault {
        write!(text, "{fault}|")?;
    }
    Ok(text)
}

fn show(text: &mut String, statement: &Statement) -> Result<(), Fail> {
    match statement {
        Statement::CreateKey { path } => show_name(text, "create", path.units()),
        Statement::DeleteKey { path } => show_name(text, "delete", path.units()),
        Statement::DeleteValue { name } => show_name(text, "unset", name.units()),
        Statement::SetValue { name, kind, bytes } => {
            show_name(text, "set", name.units())?;
            write!(text, " {kind} ")?;
            for byte in bytes.bytes() {
                write!(text, "{byte:02x}")?;
            }
            Ok(())
        }
    }
}

fn show_name(text: &mut String, verb: &str, units: &[u16]) -> Result<(), Fail> {
    write!(text, "{verb} ")?;
    for unit in units {
        text.push(char::from_u32(u32::from(*unit)).unwrap_or('?'))?;
    }
    Ok(())
}
