//! A pool of statements.

use crate::ffi;
use crate::statement::TEXT_MAX;

/// A pool has no more statements, and so has a record.
pub const STATEMENTS: usize = 512;

/// The words of a pool: 151 for each statement, and the number of statements.
pub const POOL_WORDS: usize = 151 * STATEMENTS + 1;

/// Statements that controllers signed or were given, numbered from 0 in the order in which they came.
///
/// Controllers may share a pool or have one each. `==` compares the memory, also words that stand for nothing.
#[derive(Clone, PartialEq, Eq)]
pub struct Pool {
    words: Box<ffi::Words>,
}

impl Default for Pool {
    fn default() -> Pool {
        let mut pool = Pool { words: zeros() };
        pool.clear();
        pool
    }
}

/// The memory of a pool, made where it stays: a stack may have no room for it.
fn zeros() -> Box<ffi::Words> {
    let words = vec![0; POOL_WORDS].into_boxed_slice();
    words.try_into().unwrap_or_else(|_| unreachable!("it has as many words as were asked for"))
}

/// All words are of use to nobody, so none is shown.
impl std::fmt::Debug for Pool {
    fn fmt(&self, f: &mut std::fmt::Formatter<'_>) -> std::fmt::Result {
        f.debug_struct("Pool").finish_non_exhaustive()
    }
}

/// Any words mean some pool.
impl From<Box<[u64; POOL_WORDS]>> for Pool {
    fn from(words: Box<[u64; POOL_WORDS]>) -> Pool {
        Pool { words }
    }
}

/// Why a statement did not go into a pool.
#[derive(Clone, Copy, PartialEq, Eq, Hash, Debug)]
pub enum AppendError {
    /// The pool holds 512 others.
    Full,
    /// The line is the text of no statement that keeps the field rules in a ring of that many notices.
    NoStatement,
}

impl std::fmt::Display for AppendError {
    fn fmt(&self, f: &mut std::fmt::Formatter<'_>) -> std::fmt::Result {
        f.write_str(match self {
            AppendError::Full => "the pool is full",
            AppendError::NoStatement => "the line is no statement",
        })
    }
}

impl std::error::Error for AppendError {}

/// What is answered for a statement that has no room, and for a line that is none.
const POOL_FULL: u16 = 512;
const NO_STATEMENT: u16 = 513;

impl Pool {
    /// An empty pool.
    pub fn new() -> Pool {
        Pool::default()
    }

    /// Makes the pool empty. This costs less than a new one, since its memory is there.
    pub fn clear(&mut self) {
        ffi::pekdrav_pool_clear(&mut self.words);
    }

    /// The number of the statement that `line` is in a ring of that many notices, which goes to the end if it is not in the pool.
    ///
    /// Only the words of a new statement and the number of statements are written.
    pub fn append(&mut self, line: &[u8], notices: usize) -> Result<u16, AppendError> {
        match ffi::pool_append(&mut self.words, line, notices) {
            POOL_FULL => Err(AppendError::Full),
            NO_STATEMENT => Err(AppendError::NoStatement),
            number => Ok(number),
        }
    }

    /// The text of a statement, if the pool has that number.
    pub fn text(&self, number: u16) -> Option<Vec<u8>> {
        let mut out = [0; TEXT_MAX];
        let length = ffi::pool_text(&self.words, number, &mut out);
        (length > 0).then(|| out[..length].to_vec())
    }

    /// The words that the pool stands in.
    #[inline]
    pub fn words(&self) -> &[u64; POOL_WORDS] {
        &self.words
    }

    #[inline]
    pub(crate) fn words_mut(&mut self) -> &mut ffi::Words {
        &mut self.words
    }
}
