//! A second implementation of the topology reader, of the search with its map
//! check, of the diagnosis, of the least depth of a regular chip, of the queue tree,
//! of the carrying of a path, of disciplines and of the programs, written from the
//! papers, and what it takes to compare them with those proved in Rattle.

pub mod both_trees;
pub mod buychip;
pub mod commands;
pub mod diagnosis;
pub mod drawing;
pub mod embedding;
pub mod gatewalk;
pub mod generate;
pub mod history;
pub mod kinds;
pub mod laborious;
pub mod misread;
pub mod pairs;
pub mod paper;
pub mod plain;
pub mod plain_tree;
pub mod queue_tree;
pub mod random;
pub mod reached;
pub mod reduced;
pub mod regular;
pub mod requests;
pub mod rounds;
pub mod rules;
pub mod samples;
pub mod scheduler;
pub mod script;
pub mod scripts;
pub mod states;
pub mod topology;
pub mod translator;
pub mod worked_table;
