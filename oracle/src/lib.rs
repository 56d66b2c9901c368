//! A second, naive judge, written from the documents in `docs/` alone, and what compares it with the programs.
//!
//! - `bytes`: the three files, field by field
//! - `plan`: models, their rules, the steps out of a cell
//! - `sets`: clock sets, as a sorted map of the limits that are there
//! - `check`: sets looked at reading by reading (only if `ORACLE_CHECK` is set)
//! - `trail`, `docket`, `report`: runs, duties, the lines that are printed
//! - `fast`: a judge with packed bounds in flat arrays, for the timings and as a third opinion
//! - `plain`: the proved judge's own steps without proofs, for the timings
//! - `gen`, `prng`: random tasks

pub mod bytes;
pub mod check;
pub mod docket;
pub mod fast;
pub mod folder;
pub mod gen;
pub mod plain;
pub mod plan;
pub mod prng;
pub mod report;
pub mod sets;
pub mod trail;
