//! Packed trees: made from the events of an XML parser, and read into models.

use std::fmt;

use crate::{Refusal, boundary, work_words};

/// The longest model that [`read`] makes room for, 1 GiB.
const MOST_ROOM: usize = 1 << 30;

/// Reads a packed tree into a model. It finds the room itself, up to 1 GiB.
///
/// # Errors
///
/// [`Refusal::Layout`], [`Refusal::NotUtf8`], [`Refusal::TooManyElements`], [`Refusal::NotProject`] and [`Refusal::NumberTooLong`] for trees that are no
/// plan; [`Refusal::NoRoom`] for a model of more than 1 GiB.
///
/// ```
/// let mut tree = mspdi::TreeBuilder::new();
/// tree.start("Project")?;
/// tree.start("Name")?;
/// tree.text("Bridge")?;
/// tree.end()?;
/// tree.end()?;
/// let model = mspdi::read(&tree.finish()?)?;
/// assert_eq!(mspdi::check(&model), Ok(()));
/// # Ok::<(), Box<dyn std::error::Error>>(())
/// ```
pub fn read(tree: &[u8]) -> Result<Vec<u8>, Refusal> {
    let mut room = tree.len().next_multiple_of(4096).min(MOST_ROOM);
    loop {
        let mut model = vec![0; room];
        match read_into(tree, &mut model) {
            Err(Refusal::NoRoom) if room < MOST_ROOM => room = (4 * room).clamp(4096, MOST_ROOM),
            Err(why) => return Err(why),
            Ok(length) => {
                model.truncate(length);
                model.shrink_to_fit();
                return Ok(model);
            }
        }
    }
}

/// Reads a packed tree into a model in the room that is lent, and gives the model's length. The rest of the room is zeros, and all of it on a
/// refusal.
///
/// # Errors
///
/// As of [`read`]; [`Refusal::NoRoom`] where the model is longer than the room.
pub fn read_into(tree: &[u8], model: &mut [u8]) -> Result<usize, Refusal> {
    let mut work = vec![0; work_words(tree)];
    let outcome = boundary::read(tree, model, &mut work);
    match outcome.number {
        0 => Ok(usize::try_from(outcome.written).map_or(model.len(), |n| n.min(model.len()))),
        n => Err(Refusal::of(n)),
    }
}

/// Why an XML document is no packed tree.
#[derive(Debug, Clone, Copy, PartialEq, Eq, Hash)]
#[non_exhaustive]
pub enum TreeError {
    /// A local name of more than 511 bytes.
    NameTooLong,
    /// An element's own text has more than 65,535 bytes.
    TextTooLong,
    /// An element more than 65 deep, or a text 65 deep.
    TooDeep,
    /// A text outside the root, other than white space.
    TextOutside,
    /// An end without its start, or a start without its end.
    Unbalanced,
}

impl fmt::Display for TreeError {
    fn fmt(&self, f: &mut fmt::Formatter<'_>) -> fmt::Result {
        f.write_str(match self {
            TreeError::NameTooLong => "a name has more than 511 bytes",
            TreeError::TextTooLong => "an element's text has more than 65,535 bytes",
            TreeError::TooDeep => "an element stands more than 65 deep, or a text 65 deep",
            TreeError::TextOutside => "a text stands outside the root",
            TreeError::Unbalanced => "an end without its start, or a start without its end",
        })
    }
}

impl std::error::Error for TreeError {}

/// The deepest level; what stands there has no text.
const MOST_DEPTH: usize = 65;
const MOST_NAME: usize = 511;
const MOST_TEXT: usize = 65_535;

/// Makes a packed tree from the events of an XML parser: a start for each start tag, an end for each end tag, both for an empty element, and a text
/// for each piece of text, with references resolved. Comments and the like are left out.
#[derive(Debug, Clone, Default)]
pub struct TreeBuilder {
    elements: Vec<Element>,
    /// The elements that are open, by their rows.
    open: Vec<usize>,
}

#[derive(Debug, Clone)]
struct Element {
    depth: usize,
    name: String,
    text: String,
}

impl TreeBuilder {
    /// A tree with nothing in it.
    pub fn new() -> TreeBuilder {
        TreeBuilder::default()
    }

    /// An element begins. Its name may have a prefix with a colon, which is dropped.
    ///
    /// # Errors
    ///
    /// [`TreeError::NameTooLong`] and [`TreeError::TooDeep`]; the tree stays as it was.
    pub fn start(&mut self, name: &str) -> Result<(), TreeError> {
        let local = name.rsplit_once(':').map_or(name, |(_, local)| local);
        if local.len() > MOST_NAME {
            return Err(TreeError::NameTooLong);
        }
        let depth = self.open.len() + 1;
        if depth > MOST_DEPTH {
            return Err(TreeError::TooDeep);
        }
        self.open.push(self.elements.len());
        self.elements.push(Element { depth, name: local.into(), text: String::new() });
        Ok(())
    }

    /// A piece of the text of the element that is open.
    ///
    /// # Errors
    ///
    /// [`TreeError::TextTooLong`], [`TreeError::TooDeep`] and [`TreeError::TextOutside`]; the tree stays as it was.
    pub fn text(&mut self, piece: &str) -> Result<(), TreeError> {
        let Some(&row) = self.open.last() else {
            return if piece.trim().is_empty() { Ok(()) } else { Err(TreeError::TextOutside) };
        };
        let element = &mut self.elements[row];
        if element.depth == MOST_DEPTH && !piece.is_empty() {
            return Err(TreeError::TooDeep);
        }
        if element.text.len() + piece.len() > MOST_TEXT {
            return Err(TreeError::TextTooLong);
        }
        element.text.push_str(piece);
        Ok(())
    }

    /// The element that is open ends.
    ///
    /// # Errors
    ///
    /// [`TreeError::Unbalanced`] where none is open.
    pub fn end(&mut self) -> Result<(), TreeError> {
        self.open.pop().map(|_| ()).ok_or(TreeError::Unbalanced)
    }

    /// The packed tree.
    ///
    /// # Errors
    ///
    /// [`TreeError::Unbalanced`] where an element is still open.
    pub fn finish(self) -> Result<Vec<u8>, TreeError> {
        if !self.open.is_empty() {
            return Err(TreeError::Unbalanced);
        }
        let mut tree = Vec::with_capacity(self.elements.iter().map(|e| 4 + e.name.len() + e.text.len()).sum());
        for element in &self.elements {
            // Depth 7 bits, the name's length 9, the text's 16.
            let head = element.depth << 25 | element.name.len() << 16 | element.text.len();
            tree.extend_from_slice(&(head as u32).to_be_bytes());
            tree.extend_from_slice(element.name.as_bytes());
            tree.extend_from_slice(element.text.as_bytes());
        }
        Ok(tree)
    }
}
