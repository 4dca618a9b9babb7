//! Holds the proved library against `plain`: call by call, on memory of each one's own, every octet and word
//! that was lent, and what lies around it, compared.

#![forbid(unsafe_code)]

pub mod boundary;
pub mod calls;
pub mod cover;
pub mod differ;
pub mod faults;
pub mod lent;
pub mod make;
pub mod pair;
pub mod random;
pub mod scenes;
pub mod sender;
