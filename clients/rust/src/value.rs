//! Values: their types, and what stands in their data.

use std::fmt;

/// The type of a value. Any number is one; those with a name are here.
#[derive(Clone, Copy, Debug, PartialEq, Eq, PartialOrd, Ord, Hash)]
pub struct Kind(pub u32);

impl Kind {
    /// No type.
    pub const REG_NONE: Kind = Kind(0);
    /// A text.
    pub const REG_SZ: Kind = Kind(1);
    /// A text with references to environment variables.
    pub const REG_EXPAND_SZ: Kind = Kind(2);
    /// Bytes.
    pub const REG_BINARY: Kind = Kind(3);
    /// A number of 32 bits, its low byte first.
    pub const REG_DWORD: Kind = Kind(4);
    /// A number of 32 bits, its high byte first.
    pub const REG_DWORD_BIG_ENDIAN: Kind = Kind(5);
    /// The path of a key.
    pub const REG_LINK: Kind = Kind(6);
    /// Texts.
    pub const REG_MULTI_SZ: Kind = Kind(7);
    /// A number of 64 bits, its low byte first.
    pub const REG_QWORD: Kind = Kind(11);

    /// The name, if it is one of those above.
    pub fn name(self) -> Option<&'static str> {
        Some(match self {
            Kind::REG_NONE => "REG_NONE",
            Kind::REG_SZ => "REG_SZ",
            Kind::REG_EXPAND_SZ => "REG_EXPAND_SZ",
            Kind::REG_BINARY => "REG_BINARY",
            Kind::REG_DWORD => "REG_DWORD",
            Kind::REG_DWORD_BIG_ENDIAN => "REG_DWORD_BIG_ENDIAN",
            Kind::REG_LINK => "REG_LINK",
            Kind::REG_MULTI_SZ => "REG_MULTI_SZ",
            Kind::REG_QWORD => "REG_QWORD",
            _ => return None,
        })
    }
}

impl fmt::Display for Kind {
    fn fmt(&self, f: &mut fmt::Formatter<'_>) -> fmt::Result {
        match self.name() {
            Some(name) => f.write_str(name),
            None => write!(f, "{}", self.0),
        }
    }
}

/// A value: its type, and its data as the hive has it. A store takes any data under any type, up to
/// 1,048,576 bytes.
///
/// ```
/// use regtx_client::{Kind, Value};
///
/// let version = Value::sz("1.0");
/// assert_eq!((version.kind, version.data.as_slice()), (Kind::REG_SZ, b"1\0.\00\0\0\0".as_slice()));
/// assert_eq!(version.to_text().as_deref(), Some("1.0"));
/// // a reader answers none of another type, and of data that doesn't fit
/// assert_eq!((version.to_u32(), Value::dword(8080).to_u32()), (None, Some(8080)));
/// assert_eq!(Value::new(Kind::REG_DWORD, [1, 2]).to_u32(), None);
/// ```
#[derive(Clone, Debug, PartialEq, Eq, Hash)]
pub struct Value {
    /// The type.
    pub kind: Kind,
    /// The bytes.
    pub data: Vec<u8>,
}

impl Value {
    /// Bytes under any type.
    pub fn new(kind: Kind, data: impl Into<Vec<u8>>) -> Self {
        Value {
            kind,
            data: data.into(),
        }
    }

    /// Bytes of no type.
    pub fn none(data: impl Into<Vec<u8>>) -> Self {
        Value::new(Kind::REG_NONE, data)
    }

    /// A text: UTF-16 with a zero at its end.
    pub fn sz(text: &str) -> Self {
        Value::new(Kind::REG_SZ, terminated(text))
    }

    /// A text with references such as `%SystemRoot%`.
    pub fn expand_sz(text: &str) -> Self {
        Value::new(Kind::REG_EXPAND_SZ, terminated(text))
    }

    /// Bytes.
    pub fn binary(data: impl Into<Vec<u8>>) -> Self {
        Value::new(Kind::REG_BINARY, data)
    }

    /// A number of 32 bits.
    pub fn dword(number: u32) -> Self {
        Value::new(Kind::REG_DWORD, number.to_le_bytes())
    }

    /// A number of 32 bits, its high byte first.
    pub fn dword_big_endian(number: u32) -> Self {
        Value::new(Kind::REG_DWORD_BIG_ENDIAN, number.to_be_bytes())
    }

    /// The path of a key: UTF-16 without a zero at its end, since Windows takes all of the data
    /// for the path.
    pub fn link(path: &str) -> Self {
        Value::new(Kind::REG_LINK, utf16(path))
    }

    /// Texts, each with a zero at its end, and one zero more. None if a text is empty or has a
    /// zero in it: a reader would take that for an end.
    pub fn multi_sz<'a>(texts: impl IntoIterator<Item = &'a str>) -> Option<Self> {
        let mut data = Vec::new();
        for text in texts {
            if text.is_empty() || text.contains('\0') {
                return None;
            }
            data.extend(terminated(text));
        }
        data.extend([0, 0]);
        Some(Value::new(Kind::REG_MULTI_SZ, data))
    }

    /// A number of 64 bits.
    pub fn qword(number: u64) -> Self {
        Value::new(Kind::REG_QWORD, number.to_le_bytes())
    }

    /// The text of a REG_SZ, REG_EXPAND_SZ or REG_LINK, without the zero at its end, if it has
    /// one. None if the type is another one, or the data isn't well-formed UTF-16.
    pub fn to_text(&self) -> Option<String> {
        match self.kind {
            Kind::REG_SZ | Kind::REG_EXPAND_SZ | Kind::REG_LINK => {
                let units = self.units()?;
                String::from_utf16(units.strip_suffix(&[0]).unwrap_or(&units)).ok()
            }
            _ => None,
        }
    }

    /// The texts of a REG_MULTI_SZ; zeros at the end may be missing. None as of `to_text`.
    pub fn to_texts(&self) -> Option<Vec<String>> {
        if self.kind != Kind::REG_MULTI_SZ {
            return None;
        }
        let units = self.units()?;
        let list = units.strip_suffix(&[0]).unwrap_or(&units);
        let list = list.strip_suffix(&[0]).unwrap_or(list);
        if list.is_empty() {
            return Some(Vec::new());
        }
        list.split(|&unit| unit == 0)
            .map(|text| String::from_utf16(text).ok())
            .collect()
    }

    /// The number of a REG_DWORD or REG_DWORD_BIG_ENDIAN. None if the type is another one, or the
    /// data isn't 4 bytes.
    pub fn to_u32(&self) -> Option<u32> {
        let bytes = self.data.as_slice().try_into().ok()?;
        match self.kind {
            Kind::REG_DWORD => Some(u32::from_le_bytes(bytes)),
            Kind::REG_DWORD_BIG_ENDIAN => Some(u32::from_be_bytes(bytes)),
            _ => None,
        }
    }

    /// The number of a REG_QWORD. None if the type is another one, or the data isn't 8 bytes.
    pub fn to_u64(&self) -> Option<u64> {
        let bytes = self.data.as_slice().try_into().ok()?;
        (self.kind == Kind::REG_QWORD).then_some(u64::from_le_bytes(bytes))
    }

    fn units(&self) -> Option<Vec<u16>> {
        let pairs = self.data.chunks(2);
        pairs
            .map(|pair| Some(u16::from_le_bytes(pair.try_into().ok()?)))
            .collect()
    }
}

fn utf16(text: &str) -> Vec<u8> {
    text.encode_utf16().flat_map(u16::to_le_bytes).collect()
}

fn terminated(text: &str) -> Vec<u8> {
    let mut data = utf16(text);
    data.extend([0, 0]);
    data
}
