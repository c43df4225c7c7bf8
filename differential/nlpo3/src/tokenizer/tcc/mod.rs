//! Stand-in for the module file.
pub mod tcc_rules;
pub mod tcc_tokenizer;
