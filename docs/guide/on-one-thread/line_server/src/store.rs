//! The texts that are held.
use std::alloc::{AllocError, Global};
use std::collections::BTreeMap;

/// Texts, each at its key.
#[derive(Drop)]
pub struct Store {
    alloc: Global,
    texts: BTreeMap<String, String>,
}

impl Store {
    /// Returns a store that holds no text.
    pub fn new(alloc: Global) -> Store {
        Store {
            alloc,
            texts: BTreeMap::new(alloc),
        }
    }

    /// Returns a copy of the text at a key.
    pub fn get(&self, key: &str) -> Result<Option<String>, AllocError> {
        match self.texts.get(key) {
            Some(text) => Ok(Some(text.clone()?)),
            None => Ok(None),
        }
    }

    /// Holds a text at a key, in place of the one that was there.
    pub fn set(&mut self, key: &str, text: &str) -> Result<(), AllocError> {
        let key = String::from_str(self.alloc, key)?;
        let text = String::from_str(self.alloc, text)?;
        self.texts.insert(key, text)?;
        Ok(())
    }

    /// Drops the text at a key. Returns whether there was one.
    pub fn delete(&mut self, key: &str) -> bool {
        self.texts.remove(key).is_some()
    }

    /// Returns how many texts are held.
    pub fn len(&self) -> usize {
        self.texts.len()
    }
}
