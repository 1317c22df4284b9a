//! Macros that are passed an allocator or a runtime.

/// `vec![in alloc; item; count]?` and `vec![in alloc; item, ..]?`
#[macro_export]
macro_rules! vec {
    (in $alloc:expr; $item:expr; $count:expr) => {
        $crate::vec::Vec::from_elem($alloc, $item, $count)
    };
    (in $alloc:expr; $($item:expr),* $(,)?) => {
        $crate::vec::Vec::from_array($alloc, [$($item),*])
    };
}

/// `format!(in alloc; "..")?`
#[macro_export]
macro_rules! format {
    (in $alloc:expr; $($text:tt)*) => {
        $crate::string::formatted($alloc, format_args!($($text)*))
    };
}

/// `print!(rt; "..")?`
#[macro_export]
macro_rules! print {
    ($rt:expr; $($text:tt)*) => {
        $crate::io::Print::print_text(&$rt, format_args!($($text)*))
    };
}

/// `println!(rt; "..")?`
#[macro_export]
macro_rules! println {
    ($rt:expr; $($text:tt)*) => {
        $crate::io::Print::print_text(&$rt, format_args!("{}\n", format_args!($($text)*)))
    };
}

/// `eprintln!(rt; "..")?`
#[macro_export]
macro_rules! eprintln {
    ($rt:expr; $($text:tt)*) => {
        $crate::io::Eprint::eprint_text(&$rt, format_args!("{}\n", format_args!($($text)*)))
    };
}

/// What is proved isn't tested.
#[macro_export]
macro_rules! prove {
    ($($fact:tt)*) => {
        ()
    };
}

/// `assert!(rt; ..)`
#[macro_export]
macro_rules! assert {
    ($rt:expr; $($fact:tt)*) => {
        ::std::assert!($($fact)*)
    };
}

/// `assert_eq!(rt; ..)`
#[macro_export]
macro_rules! assert_eq {
    ($rt:expr; $($values:tt)*) => {
        ::std::assert_eq!($($values)*)
    };
}
