//! Stand-ins for the parts of modalkit that the compiled files lean on and that are absent from
//! their source: types as the compiled files use them, bodies with the meanings that document 01
//! fixes. What only completion, keys and buffers use has no body here.

pub mod actions;
pub mod editing;
pub mod event;
pub mod key;
pub mod prelude;
