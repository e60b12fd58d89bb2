//! BIBOX, the method that source document 001 publishes (Surynek, "Solving Abstract Cooperative
//! Path-Finding in Densely Populated Environments", Algorithms 1 and 2), written from its pseudo-code and
//! prose. The proved planner is measured against it; nothing of the product uses it.
//!
//! | module      | what it has                                                               |
//! |-------------|---------------------------------------------------------------------------|
//! | `agents`    | the agents of an order: its racks, and stand-ins for vacancies beyond two |
//! | `operation` | Algorithm 1, the basic movements                                          |
//! | `goal`      | Transform-Goal: the goal with its vacancies shifted to the base ring      |
//! | `bibox`     | Algorithm 2, the method                                                   |
//!
//! The source's words are kept where a line of its pseudo-code is followed: an agent is a rack or a
//! stand-in, a vertex a position, the initial cycle the base ring, an unoccupied vertex a vacancy.
//!
//! Where the text leaves a choice open, this one is taken:
//!
//! - The handle decomposition is `second::breakdown::find`: the shortest ring, then shortest handles
//!   first. Edges that it leaves unused count as handles of no inner position, added once both ends are
//!   there, so that every path may use them.
//! - Every path is a shortest one, that of a handle's cycle too; with that, line 23 of
//!   Solve-Regular-Handle always finds a vertex y. The two paths of Transform-Goal are shortest together.
//! - `operation::Choice` says which position is taken: the vacancy (line 1 of Make-Unoccupied), w and z
//!   (line 2 of Solve-Regular-Handle), y (line 23), u and v (line 1 of Solve-Original-Cycle), and the first
//!   two vertices of the initial cycle. The pseudo-code leaves it open. The prose advises the nearest for
//!   the vacancy, y, u and v, and u and v chosen anew for each exchange; here that goes for the others too.
//! - The "lazier approach" of the source's own experiments is not described there and not taken: the
//!   pseudo-code's lines are all followed, even for an agent that stands at its goal already.
//!
//! Where the text cannot stand as it is:
//!
//! - Exchange-Agents rotates the initial cycle with v as its unoccupied vertex (lines 5 and 23), which is
//!   not on the cycle. The vacancy on the cycle is meant.
//! - Exchange-Agents keeps the order of the agents round the cycle, but which of the two ways the vacancies
//!   go to u and back to the first two vertices is left open, and with the wrong one all agents end one
//!   place on. So line 2 keeps the first vertex vacant, and before line 25, with u locked, the vacancy
//!   on the cycle goes back there.
//! - A move out of a vertex that is vacant itself, as met when a cycle with both vacancies is rotated,
//!   is no move.
//!
//! Where document 01 and the proved planner differ: from two vacancies on any number is allowed, and those
//! beyond two are filled with stand-ins whose moves are dropped; so it is done here. The source uses them as
//! vacancies and leaves the details to its technical report. A turn of a cycle takes every rack one place on;
//! the source's rotation, kept here, makes as many moves as the cycle has vertices and brings the vacancy back
//! to its place, so that one rack goes two places. And "if each start is its goal, the plan has no moves",
//! which the source does not ask.
#![forbid(unsafe_code)]

pub mod agents;
pub mod bibox;
pub mod goal;
pub mod operation;
