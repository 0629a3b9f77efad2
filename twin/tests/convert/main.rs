//! The converter (document 02, No. 7).

mod draw;
mod files;
mod header_zero;
mod rules;
mod unread;
mod words;
mod worked;
