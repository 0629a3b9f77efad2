//! Calls and states to try: lists of calls that get somewhere, scenes with faults, issue around the
//! interval, around the client's mark and around its limits, send and issue around what is held, exports
//! with files of any length, imports of pairs whole and spoilt, old media, pairs of version 1, records
//! with any fields, header 0 among them, places near valid ones, recoveries, media from
//! backups, random states.

pub mod caller;
pub mod checkpoint;
pub mod clients;
pub mod exports;
pub mod faults;
pub mod headers;
pub mod import_rows;
pub mod imports;
pub mod in_flight;
pub mod limits;
pub mod old_media;
pub mod records;
pub mod recoveries;
pub mod recovery_faults;
pub mod recovery_rows;
pub mod restore_rows;
pub mod restores;
pub mod scene;
pub mod states;
pub mod unfit;
pub mod useful;
pub mod version_1;
