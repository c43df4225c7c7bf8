//! Stand-in for the trait.
use anyhow::Result;

pub trait Tokenizer {
    fn segment(&self, text: &str) -> Result<Vec<String>>;
}
