//! Seeded inputs with known answers.
//!
//! Nothing here uses the reader's or the writer's code: files are laid out byte by
//! byte from a model ([`model`], [`lay`]), which has all the freedoms that
//! document 01 allows and the writer never uses. A damage ([`damage`], [`ways`])
//! breaks one rule of such a file in one named way and knows the refusal it must
//! give. The inputs of rows 18 to 33 and 35 are in [`asking`], [`numbers`], [`forged`],
//! [`sheets`] and [`writing`], the values of rows 34 and 35 in [`channels`], questions of one
//! trace in [`quick`], files of older recorders in [`old`]; [`plain`] makes a file around one
//! text or data block. The same seed gives the same cases on every machine.

pub mod asking;
pub mod channels;
pub mod damage;
mod expected;
pub mod forged;
pub mod lay;
pub mod model;
pub mod numbers;
pub mod old;
pub mod plain;
pub mod quick;
pub mod rng;
pub mod sheets;
pub mod ways;
pub mod writing;

pub use asking::{mutated, sample_case, too_long_for_listing, SampleCase, SampleQuestion};
pub use channels::{bad_channel, channel_for, good_channel, sheet_of_a_start, with_channel};
pub use damage::{damaged, damaged_image, several_damages, Damaged, Scope, Way};
pub use forged::{forged_number, number_edges};
pub use lay::Laid;
pub use model::Model;
pub use numbers::{location_case, number_case, LocationCase, NumberCase};
pub use old::{mutated_old, old_case, old_damaged, OldCase};
pub use plain::{plain_file, PlainTrace};
pub use quick::{quick_case, quick_key, QuickAsked, QuickCase, QuickTold};
pub use rng::Rng;
pub use sheets::{good_sheet, sheet_case, SheetCase};
pub use ways::WAYS;
pub use writing::{addition_case, start_case, AdditionCase, StartCase};
