//! A second program for the device side of virtio-iommu, written from documents 01 and 02
//! alone, and the means to compare another program with it journal by journal.

pub mod access;
pub mod answers;
pub mod children;
pub mod compare;
pub mod config;
pub mod coverage;
pub mod device;
pub mod faults;
pub mod fields;
pub mod figures;
pub mod generate;
pub mod journal;
pub mod long_journal;
pub mod numbers;
pub mod places;
pub mod player;
pub mod probe;
pub mod program;
pub mod random;
pub mod record;
pub mod regions;
pub mod requests;
pub mod reserved;
pub mod run;
pub mod sound;
pub mod table;
