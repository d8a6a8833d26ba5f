//! A list of different statements in order of arrival: a controller's record, or the bench's pool.

use crate::index::{hash_of, Index};
use crate::statement::Statement;

#[derive(Clone, Debug)]
pub struct Record {
    statements: Vec<Statement>,
    index: Index,
}

impl Default for Record {
    fn default() -> Record {
        Record { statements: Vec::new(), index: Index::for_keys(Record::LIMIT) }
    }
}

impl Record {
    pub const LIMIT: usize = 512;

    pub fn statements(&self) -> &[Statement] {
        &self.statements
    }

    pub fn len(&self) -> usize {
        self.statements.len()
    }

    pub fn is_empty(&self) -> bool {
        self.statements.is_empty()
    }

    pub fn is_full(&self) -> bool {
        self.len() >= Record::LIMIT
    }

    /// The place of the statement, counted from 0.
    pub fn find(&self, statement: &Statement) -> Option<usize> {
        self.seek(statement).ok()
    }

    pub fn holds(&self, statement: &Statement) -> bool {
        self.find(statement).is_some()
    }

    /// Puts the statement at the end if it is new and there is room, and says where it stands.
    pub fn push(&mut self, statement: Statement) -> Option<usize> {
        match self.seek(&statement) {
            Ok(place) => Some(place),
            Err(_) if self.is_full() => None,
            Err(slot) => {
                self.index.put(slot, self.len());
                self.statements.push(statement);
                Some(self.len() - 1)
            }
        }
    }

    fn seek(&self, statement: &Statement) -> Result<usize, usize> {
        self.index.find(hash_of(statement), |place| self.statements[place] == *statement)
    }
}
