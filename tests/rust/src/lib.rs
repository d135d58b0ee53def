//! Tests of the Drevokas library against an independent model of document 01 and the requests of document 02.

pub mod desk;
pub mod ffi;
pub mod generate;
pub mod guarded;
pub mod model;
pub mod report;
