//! The program `upload` from outside: its status, its two streams, and what it says.
#![cfg(feature = "xmlparser")]

mod common;
mod excerpts;
mod json;
mod run;
mod sheets;
mod shown;
mod status;
