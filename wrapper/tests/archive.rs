//! The interface that is declared for Rust is the one of the archive.

use std::mem::{offset_of, size_of};
use succoryvise_sys::{version, Answer, VERSION};

/// The answer lies in memory as the C compiler has it, too.
#[test]
fn layout() {
    let answer = Answer::default();
    macro_rules! field {
        ($name:ident) => {{
            let at = offset_of!(Answer, $name);
            let size = std::mem::size_of_val(&answer.$name);
            format!("{} at {at}, {size} bytes\n", stringify!($name))
        }};
    }
    let fields = [
        field!(number),
        field!(letter),
        field!(place),
        field!(first),
        field!(second),
        field!(third),
        format!("whole, {} bytes\n", size_of::<Answer>()),
    ];
    let stated = include_str!("../../tests/interface/layout.txt");
    assert_eq!(fields.concat(), stated);
}

/// The archive says the version that its names end in.
#[test]
fn version_of_the_archive() {
    assert_eq!(version(), VERSION);
}
