//! The command `egretfold` run as a user runs it: its outputs held against stored
//! ones, its command line, streams there and back, logs over midnight, months scored and
//! their cards, cards verified, fleets of them, months side by side, the recipes and the schema of the documents, states kept in files,
//! stations for years, pictures and surveys, the working by hand, what a desk meets beside the answers, hostile lines and inputs,
//! and the examples of the documents.

mod card;
mod causes;
mod common;
mod desk;
mod desk_checks;
mod engines;
mod entries;
mod examples;
mod files;
mod fleet;
mod golden;
mod history;
mod hostile;
mod joined;
mod lessees;
mod load;
mod pictures;
mod program;
mod recipes;
mod replay;
mod round_trip;
mod schema;
mod score;
mod states;
mod verify;
mod working;
mod years;
