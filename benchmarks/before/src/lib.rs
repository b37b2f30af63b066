//! The entries of another library, to be measured beside this one's: BEFORE_LIBRARIES is the folder of
//! its archive and its header. What `succoryvise-sys` has for this library is made of that header.

include!(concat!(env!("OUT_DIR"), "/entries.rs"));
