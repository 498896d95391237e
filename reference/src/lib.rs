//! The separate implementation: document 01's translator and runner in plain Rust.
//!
//! The translator goes the way of the document: `token`, `grammar`, then `names`, `labels`, `layout` and `kinds` over
//! the tree, then `code` and `object`; `translate` puts them together. `random`, `spell`, `build` and `gen` make source
//! texts to try it on; `earley` and `rules` are second opinions on refusals 4 and 5 to 13. `vectors` stores texts with their
//! answers.
//!
//! The runner: `objread` reads object text, `machine` carries out one instruction, `runner` loads and runs; `genrun` makes
//! runs to try it on, `runcase` has their form in files, `runvectors` stores them with their answers; `assemble`, `codetable`
//! and `hercules` hold it against outside tools.
//!
//! `watch` watches a run of an accepted text, by what `meant` reads in the text; `hunt` makes texts that aim at protection,
//! `slips` has wrong translators, and `watching` runs and tries the watcher on many.
//!
//! Document 02: `functions` has the standard functions of 1/13, `spot` the lines and columns of 2/13; `caseruns` makes programs with
//! the CASE of 3/13 and says how their runs end.
//!
//! `examples` makes the results beside the examples, `refusals` the page on refusals, and `manual` reads the manual's texts.

pub mod assemble;
pub mod build;
pub mod byte_points;
pub mod case_points;
pub mod caseruns;
pub mod cmd_run;
pub mod cmd_text;
pub mod cmd_watch;
pub mod code;
pub mod codetable;
pub mod earley;
pub mod examples;
pub mod functions;
pub mod gen;
pub mod genrun;
pub mod grammar;
pub mod help;
pub mod hercules;
pub mod hunt;
pub mod kinds;
pub mod labels;
pub mod layout;
pub mod line_points;
pub mod machine;
pub mod manual;
pub mod meant;
pub mod names;
pub mod object;
pub mod objread;
pub mod points;
pub mod random;
pub mod refusals;
pub mod rules;
pub mod runcase;
pub mod runner;
pub mod runspeed;
pub mod runvectors;
pub mod slips;
pub mod spell;
pub mod spot;
pub mod token;
pub mod translate;
pub mod vectors;
pub mod violations;
pub mod watch;
pub mod watching;
