//! The operating years, beside the drawn ones: what is at the top of each, and the
//! years outside. Their calendars are compared in `calendar`, whole lists of calls
//! in `call_lists`.

mod outside;
mod tops;
