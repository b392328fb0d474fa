//! Stands in for the XML crate: its reader replays the events of a packed tree (document 01, "The tree")
//! that was set for this thread, and leaves the text that it is given unread. It trusts the layout only
//! as far as it must; the caller has tested it.
use std::borrow::Cow;
use std::cell::Cell;
use std::marker::PhantomData;

use events::{BytesEnd, BytesStart, BytesText, Event};

thread_local! {
    static TREE: Cell<(*const u8, usize)> = const { Cell::new((std::ptr::null(), 0)) };
}

/// Runs `run` with `tree` as what every reader of this thread replays.
pub fn with_tree<R>(tree: &[u8], run: impl FnOnce() -> R) -> R {
    struct Restore((*const u8, usize));
    impl Drop for Restore {
        fn drop(&mut self) {
            TREE.set(self.0);
        }
    }
    let _restore = Restore(TREE.replace((tree.as_ptr(), tree.len())));
    run()
}

/// An element at this depth cannot be opened by the reader; it is given as an empty one.
const DEEPEST: usize = 65;

pub struct Reader<'a> {
    tree: &'static [u8],
    open: usize,
    text: &'static str,
    unread: PhantomData<&'a str>,
}

impl<'a> Reader<'a> {
    pub fn from_str(_text: &'a str) -> Reader<'a> {
        let (start, len) = TREE.get();
        // Sound: `with_tree` holds the slice until its closure returns, and the reader that `parse`
        // makes within that closure does not outlive it.
        let tree = if start.is_null() { &[][..] } else { unsafe { std::slice::from_raw_parts(start, len) } };
        Reader { tree, open: 0, text: "", unread: PhantomData }
    }

    pub fn read_event(&mut self) -> Result<Event<'static>, Error> {
        if !self.text.is_empty() {
            return Ok(Event::Text(BytesText(std::mem::take(&mut self.text))));
        }
        let Some(head) = self.tree.first_chunk::<4>() else {
            return Ok(self.after_last());
        };
        let head = u32::from_be_bytes(*head);
        let depth = (head >> 25) as usize;
        if self.open >= depth {
            self.open -= 1;
            return Ok(Event::End(BytesEnd));
        }
        self.element(depth, (head >> 16 & 0x1FF) as usize, (head & 0xFFFF) as usize)
    }

    fn after_last(&mut self) -> Event<'static> {
        if self.open == 0 {
            return Event::Eof;
        }
        self.open -= 1;
        Event::End(BytesEnd)
    }

    fn element(&mut self, depth: usize, name: usize, text: usize) -> Result<Event<'static>, Error> {
        let end = 4 + name + text;
        let bytes = self.tree.get(4..end).ok_or(Error("a record is cut"))?;
        let utf8 = |bytes| std::str::from_utf8(bytes).map_err(|_| Error("a name or text is not UTF-8"));
        let start = BytesStart(utf8(&bytes[..name])?);
        self.text = utf8(&bytes[name..])?;
        self.tree = &self.tree[end..];
        if depth == DEEPEST {
            return Ok(Event::Empty(start));
        }
        self.open += 1;
        Ok(Event::Start(start))
    }
}

#[derive(Debug)]
pub struct Error(&'static str);

impl std::fmt::Display for Error {
    fn fmt(&self, f: &mut std::fmt::Formatter<'_>) -> std::fmt::Result {
        f.write_str(self.0)
    }
}

pub mod events {
    use super::*;

    pub enum Event<'a> {
        Start(BytesStart<'a>),
        Empty(BytesStart<'a>),
        End(BytesEnd),
        Text(BytesText<'a>),
        CData(BytesText<'a>),
        GeneralRef(BytesRef<'a>),
        Comment,
        Eof,
    }

    pub struct BytesStart<'a>(pub(crate) &'a str);
    pub struct BytesEnd;
    pub struct BytesText<'a>(pub(crate) &'a str);
    pub struct BytesRef<'a>(&'a str);
    pub struct QName<'a>(Cow<'a, str>);

    impl<'a> BytesStart<'a> {
        /// The name of the packed tree is a local one: a colon in it is no prefix, and goes over as a
        /// character that no name of MSPDI has either.
        pub fn name(&self) -> QName<'a> {
            QName(if self.0.contains(':') { Cow::Owned(self.0.replace(':', "_")) } else { Cow::Borrowed(self.0) })
        }
    }

    impl AsRef<str> for QName<'_> {
        fn as_ref(&self) -> &str {
            &self.0
        }
    }

    impl<'a> BytesText<'a> {
        pub fn xml10_content(&self) -> Cow<'a, str> {
            Cow::Borrowed(self.0)
        }
    }

    impl BytesRef<'_> {
        pub fn is_char_ref(&self) -> bool {
            false
        }

        pub fn resolve_char_ref(&self) -> Result<Option<char>, Error> {
            Ok(None)
        }
    }

    impl std::ops::Deref for BytesRef<'_> {
        type Target = str;

        fn deref(&self) -> &str {
            self.0
        }
    }
}

pub mod escape {
    use std::borrow::Cow;

    /// The five characters that XML names.
    pub fn escape(text: &str) -> Cow<'_, str> {
        let named = |c: char| match c {
            '<' => "&lt;".to_string(),
            '>' => "&gt;".to_string(),
            '&' => "&amp;".to_string(),
            '\'' => "&apos;".to_string(),
            '"' => "&quot;".to_string(),
            _ => c.to_string(),
        };
        text.chars().map(named).collect::<String>().into()
    }
}
