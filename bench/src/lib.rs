//! Tests of the proved archive, against a model of its own.

#![forbid(unsafe_code)]

pub mod calls;
pub mod captures;
pub mod fence;
pub mod frames;
pub mod model;
pub mod programs;
pub mod servers;
pub mod texts;
