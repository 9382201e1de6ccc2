//! The page keeper of paper 01 written plainly, from the paper alone, to compare the proved keeper with.
//! It shares no code with it: only the layout of the lent tables is the same.

pub mod accounts; // who pays, and for what
pub mod bench; // the lists that speed is measured over, and the measuring
pub mod carry; // a design carried to another board: export, import
pub mod drive; // random lists of events, and what must hold along them
pub mod event; // requests as numbers, and their events
pub mod events; // what each event does
pub mod fit; // question 1
pub mod keeper; // the public calls
pub mod linked; // keepers that are linked in, to drive beside this one
pub mod mend; // a pack that restart turns away, mended
pub mod program; // the event program
pub mod questions; // questions 3 to 27
pub mod queue; // the free queue, the removal list and the waiting line
pub mod restart; // memory built anew from the disk part
pub mod rules; // question 2
pub mod sheet; // design sheets: what one says, printed and parsed
pub mod stores; // the stores that a create and an import make to the disk
pub mod tables; // sizes and tables
