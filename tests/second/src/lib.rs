//! The second program: document 01 rendered from its text alone.
//!
//! It shares no line with the proved library and is compared with it call by call. Where it could
//! choose, it takes the slow and literal way: the sets by trying every order of looms, the machine
//! by the table of places, the file field by field.
//!
//! Read the modules in this order; each rests on those before it.

// The document.
pub mod limits;
pub mod codes;
pub mod side;
pub mod sets;
pub mod cell;
pub mod recording;
pub mod group;
pub mod schedule;
pub mod log;
pub mod order;
pub mod label;
pub mod hall;

// What the comparison asks with, and how it asks.
pub mod inputs;
pub mod wire;
pub mod asking;
