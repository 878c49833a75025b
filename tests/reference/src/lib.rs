//! A second reading of the licence book, written for comparison only.
//!
//! It keeps the book as the plain machine of document 01 does (lists of
//! written grants) and answers from those lists with two evaluators:
//! `bottom_up` repeats the three rules until nothing changes, `top_down`
//! follows Query2, Auth2 and Holds2 of document 000. A query is answered by
//! what stands under every choice of which provisional licences become firm.

pub mod bottom_up;
pub mod grant;
pub mod listing;
pub mod machine;
pub mod numbered;
pub mod reader;
pub mod sorts;
pub mod top_down;
