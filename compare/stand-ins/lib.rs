//! sage's modules. Those marked here are stand-ins; every other file is the unchanged one.
#![allow(warnings)]

pub mod database;
pub mod enzyme;
pub mod fasta; // stand-in
pub mod fdr;
pub mod heap; // stand-in
pub mod ion_series;
pub mod isotopes; // stand-in
pub mod lfq;
pub mod mass;
pub mod ml; // stand-ins: regression, retention_alignment, retention_model; a recorder around kde
pub mod modification;
pub mod peptide;
pub mod scoring;
pub mod spectrum; // stand-in
