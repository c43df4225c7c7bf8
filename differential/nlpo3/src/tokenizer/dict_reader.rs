//! Stand-in: dictionary files are not read here.
use super::{fst_dict::FstDict, trie_char::TrieChar};
use anyhow::{Result, bail};
use std::path::PathBuf;

pub enum DictSource {
    FilePath(PathBuf),
    WordList(Vec<String>),
}

pub fn create_dict_trie(_: DictSource) -> Result<TrieChar> {
    bail!("no dictionary files")
}

pub fn create_dict_fst(_: DictSource) -> Result<FstDict> {
    bail!("no FST")
}
