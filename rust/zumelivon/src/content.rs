//! What events, replies and messages of hosted machines carry.

/// What an event, a reply or a message carries: a code and bytes. Both are the program's.
///
/// A code alone is one, and so is a pair of a code and bytes or a text: `7.into()`, `(7, "a text").into()`.
///
/// A content may be dropped unseen, as that of a time-out that is cancelled. So a code is not to own anything.
#[derive(Clone, Debug, Default, PartialEq, Eq, Hash)]
pub struct Content {
    /// The code.
    pub code: u64,
    /// The bytes.
    pub bytes: Vec<u8>,
}

impl Content {
    /// The bytes as a text. What is no UTF-8 is replaced.
    pub fn text(&self) -> std::borrow::Cow<'_, str> {
        String::from_utf8_lossy(&self.bytes)
    }
}

impl From<u64> for Content {
    fn from(code: u64) -> Content {
        Content { code, bytes: Vec::new() }
    }
}

impl From<(u64, Vec<u8>)> for Content {
    fn from((code, bytes): (u64, Vec<u8>)) -> Content {
        Content { code, bytes }
    }
}

impl From<(u64, &[u8])> for Content {
    fn from((code, bytes): (u64, &[u8])) -> Content {
        Content { code, bytes: bytes.to_vec() }
    }
}

impl From<(u64, &str)> for Content {
    fn from((code, text): (u64, &str)) -> Content {
        Content { code, bytes: text.as_bytes().to_vec() }
    }
}

impl From<(u64, String)> for Content {
    fn from((code, text): (u64, String)) -> Content {
        Content { code, bytes: text.into_bytes() }
    }
}
