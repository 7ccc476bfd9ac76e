//! The customer's nested_rb_tree.rs, unchanged, with what it names.
#![allow(dead_code)]
mod hex {
    pub fn encode(bytes: impl AsRef<[u8]>) -> String {
        crate::calls::hex(bytes.as_ref())
    }
}

include!("rb_tree/nested_rb_tree.rs");
