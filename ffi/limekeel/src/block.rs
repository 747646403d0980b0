use crate::raw::Slot;
use crate::replies::Refusal;
use std::alloc::{Layout, handle_alloc_error};
use std::borrow::Borrow;
use std::cmp::Ordering;
use std::fmt::{self, Debug, Formatter};
use std::hash::{Hash, Hasher};
use std::ops::Deref;

/// Bytes that any number of messages share, of any number of connections and threads: none of them copies a byte. The memory
/// is freed with the last of them.
///
/// It is read as a `[u8]`, and compared and hashed as one.
pub struct Block {
    pub(crate) slot: Slot,
}

impl Block {
    /// A copy of these bytes. [`Refusal::NoMemory`] comes if the allocator refused.
    ///
    /// ```
    /// use limekeel::{Block, Connection, Estimate, Marks};
    ///
    /// let news = Block::new(b"to all clients")?;
    /// for _ in 0..3 {
    ///     let mut client = Connection::open(Marks::default(), Estimate::default())?;
    ///     let _ = client.write_block(&news)?;
    /// }
    /// assert_eq!(news.len(), 14);
    /// # Ok::<(), limekeel::Refusal>(())
    /// ```
    pub fn new(bytes: &[u8]) -> Result<Block, Refusal> {
        Ok(Block { slot: Slot::of(bytes)? })
    }

    /// A second block of the same bytes, which are not copied. [`Refusal::NoMemory`] comes if the allocator refused the few
    /// bytes of a block itself, or the bytes have more owners than can be counted.
    pub fn try_clone(&self) -> Result<Block, Refusal> {
        Ok(Block { slot: self.slot.share()? })
    }
}

/// A block where memory was refused is none, as of std's collections.
fn or_end(block: Result<Block, Refusal>, length: usize) -> Block {
    let layout = Layout::array::<u8>(length).unwrap_or(Layout::new::<Block>());
    block.unwrap_or_else(|_| handle_alloc_error(layout))
}

impl Clone for Block {
    /// As [`Block::try_clone`], but ends the process if memory is refused.
    fn clone(&self) -> Block {
        or_end(self.try_clone(), 0)
    }
}

impl Deref for Block {
    type Target = [u8];

    #[inline]
    fn deref(&self) -> &[u8] {
        self.slot.bytes()
    }
}

impl AsRef<[u8]> for Block {
    fn as_ref(&self) -> &[u8] {
        self
    }
}

impl Borrow<[u8]> for Block {
    fn borrow(&self) -> &[u8] {
        self
    }
}

/// A copy, as [`Block::new`], which ends the process if memory is refused.
impl From<&[u8]> for Block {
    fn from(bytes: &[u8]) -> Block {
        or_end(Block::new(bytes), bytes.len())
    }
}

/// A copy, as [`Block::new`], which ends the process if memory is refused.
impl From<&str> for Block {
    fn from(text: &str) -> Block {
        text.as_bytes().into()
    }
}

impl PartialEq for Block {
    fn eq(&self, other: &Block) -> bool {
        **self == **other
    }
}

impl Eq for Block {}

impl PartialEq<[u8]> for Block {
    fn eq(&self, other: &[u8]) -> bool {
        **self == *other
    }
}

impl PartialOrd for Block {
    fn partial_cmp(&self, other: &Block) -> Option<Ordering> {
        Some(self.cmp(other))
    }
}

impl Ord for Block {
    fn cmp(&self, other: &Block) -> Ordering {
        (**self).cmp(&**other)
    }
}

impl Hash for Block {
    fn hash<H: Hasher>(&self, state: &mut H) {
        (**self).hash(state);
    }
}

impl Debug for Block {
    fn fmt(&self, formatter: &mut Formatter<'_>) -> fmt::Result {
        write!(formatter, "b\"{}\"", self.escape_ascii())
    }
}
