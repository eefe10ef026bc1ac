//! The library against an independent implementation (`plain`), written from the documents' text in the plainest way: totals by
//! definition, rounds played as they are told, every division tried on small towns.
mod any_kind;
mod compare;
mod compare_files;
mod damaged;
mod drawn_loads;
mod files;
mod hands;
mod long;
mod plain;
mod random;
mod small;
mod towns;
mod worked;
