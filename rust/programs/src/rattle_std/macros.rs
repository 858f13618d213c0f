//! Macros that take the runtime or an allocator. They shadow Rust's in the modules after this one.
#![allow(unused_macros)]

/// `assert!(rt; ..)`.
macro_rules! assert {
    ($rt:expr; $($condition:tt)*) => {
        ::core::assert!($($condition)*)
    };
}

/// `assert_eq!(rt; a, b)`.
macro_rules! assert_eq {
    ($rt:expr; $($both:tt)*) => {
        ::core::assert_eq!($($both)*)
    };
}

/// `println!(rt; ..)`, which returns whether the line was written.
macro_rules! println {
    ($rt:expr; $($line:tt)*) => {
        $crate::rattle_std::io::write_line(::core::format_args!($($line)*))
    };
}

/// `print!(rt; ..)`, which returns whether the text was written.
macro_rules! print {
    ($rt:expr; $($text:tt)*) => {
        $crate::rattle_std::io::write_text(::core::format_args!($($text)*))
    };
}

/// `eprintln!(rt; ..)`, which returns whether the line was written.
macro_rules! eprintln {
    ($rt:expr; $($line:tt)*) => {
        $crate::rattle_std::io::write_error(::core::format_args!($($line)*))
    };
}

/// `format!(in alloc; ..)`, which may fail.
macro_rules! format {
    (in $alloc:expr; $($text:tt)*) => {
        $crate::rattle_std::string::made($alloc, ::core::format_args!($($text)*))
    };
}

/// `vec![in alloc; item; n]` and `vec![in alloc; a, b]`, which may fail.
macro_rules! vec {
    (in $alloc:expr; $item:expr; $n:expr) => {
        $crate::rattle_std::vec::Vec::filled($alloc, $item, $n)
    };
    (in $alloc:expr; $($item:expr),* $(,)?) => {
        $crate::rattle_std::vec::Vec::of_array($alloc, [$($item),*])
    };
}
