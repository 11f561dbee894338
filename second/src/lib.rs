//! A second program for the rehearsal engine, written from document 01 and its
//! readings (docs/DECISIONS.md) alone, so that the two programs can be compared run by run.

pub mod desk;
pub mod generate;
pub mod generator;
pub mod good;
pub mod hand;
pub mod image;
pub mod message;
pub mod places;
pub mod plan;
pub mod record;
pub mod refusal;
pub mod relay;
pub mod rules;
pub mod sets;
pub mod sheet;
pub mod stamp;
pub mod step;
pub mod text;
pub mod transfer;
pub mod world;
