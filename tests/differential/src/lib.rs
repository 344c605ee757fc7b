//! Differential tests: the proved code, called through libcut.a, beside the second
//! implementation of the same rules. Every answer, every field and every lent byte must be equal.

pub mod calls;
pub mod compare;
pub mod conversions;
pub mod count;
pub mod expect;
pub mod ffi;
pub mod header;
pub mod journals;
pub mod pair;
pub mod plain;
pub mod states;
pub mod text;
pub mod zones;
