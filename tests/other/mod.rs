//! Another implementation of document 01, with W-201 to W-206, W-208 and W-209 of document 02, written from the papers
//! alone and in a shape of its own. The library's answers are compared with it. Every function whose outcome depends on
//! a size takes the caller, or its sizes.

mod before;
mod build;
mod caller;
mod chain_room;
mod crc;
mod crc_table;
mod edit;
mod event;
mod list;
mod needed;
mod place;
mod plan;
mod read;
mod rebuild;
mod received;
mod roll;
mod rules;
mod schedule;
mod script;
mod section;

pub use before::Before;
pub use build::{build, build_by, file, Built};
pub use caller::{Caller, Sizes};
pub use chain_room::{chain_room_by, chain_room_halved, ChainRoom, ChainRoomMethod};
pub use chain_room::{CHAIN_ROOM_BY_PACKING_RULE, CHAIN_ROOM_PAPERS};
pub use crc::crc32;
pub use crc_table::crc32_by_table;
pub use edit::{edit, edit_by, Answer, EditMethod, EDIT_PAPERS};
pub use event::{is_chain, Event, Follows, IsChain};
pub use list::List;
pub use needed::fewest_sections;
pub use place::{place, Place};
pub use plan::{plan, plan_by, Plan};
pub use read::{check, check_by, read, read_by, refused, Asked, Reading, READ_PAPERS};
pub use rebuild::{rebuild, rebuild_by, Previous, RebuildMethod, REBUILD_PAPERS};
pub use received::{frame, frame_within, Frame, Received, ReceivedEvent, Times, TABLE_IDS};
pub use roll::{roll, roll_by, RollMethod, Rolled, ROLL_PAPERS};
pub use rules::{Rule, RULES};
pub use schedule::{pack, Lent, Method, EVENT_FRONT, PAPERS};
pub use section::{Identity, Triplet};
