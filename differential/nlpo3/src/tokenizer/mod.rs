//! Stand-in for the module file.
pub mod dict_backend;
pub mod dict_reader;
pub mod edges;
pub mod fst_dict;
pub mod newmm;
pub mod newmm_counted;
pub mod parallel_helper;
pub mod parallel_options;
pub mod tcc;
pub mod tokenizer_trait;
pub mod trie_char;
