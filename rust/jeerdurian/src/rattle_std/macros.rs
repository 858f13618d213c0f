//! Macros of Rattle's library, and of the erasure. The feature `checked` and debug builds test what is proved.

/// `vec![in alloc; item; n]`, which may fail.
macro_rules! vec {
    (in $alloc:expr; $item:expr; $n:expr) => {
        $crate::rattle_std::vec::Vec::filled($alloc, $item, $n)
    };
}

/// `format!(in alloc; ..)`, which may fail.
macro_rules! format {
    (in $alloc:expr; $($text:tt)*) => {
        $crate::rattle_std::string::made($alloc, ::core::format_args!($($text)*))
    };
}

/// The item at an index, or a part of a slice. The index is proved to be in range.
macro_rules! at {
    ($items:expr, $index:expr) => {
        if cfg!(any(debug_assertions, feature = "checked")) {
            &$items[$index]
        } else {
            // SAFETY: the index is in range. `SAFETY.md` says why, for each use.
            unsafe { $items.get_unchecked($index) }
        }
    };
}

/// Does what `at!` does, for writing.
macro_rules! at_mut {
    ($items:expr, $index:expr) => {
        if cfg!(any(debug_assertions, feature = "checked")) {
            &mut $items[$index]
        } else {
            // SAFETY: the index is in range. `SAFETY.md` says why, for each use.
            unsafe { $items.get_unchecked_mut($index) }
        }
    };
}

/// Tests that the control byte of a bucket says that it is full, as the contract of the function requires.
macro_rules! full {
    ($byte:expr) => {
        if cfg!(any(debug_assertions, feature = "checked")) {
            ::core::assert!($byte < 0x80, "a bucket that is not full");
        }
    };
}

/// A condition that is proved.
macro_rules! prove {
    ($($condition:tt)*) => {
        if cfg!(any(debug_assertions, feature = "checked")) {
            ::core::assert!($($condition)*);
        }
    };
}

/// Code that is proved never to be reached.
macro_rules! nowhere {
    () => {
        if cfg!(any(debug_assertions, feature = "checked")) {
            unreachable!()
        } else {
            // SAFETY: this is not reached. `SAFETY.md` says why, for each use.
            unsafe { ::core::hint::unreachable_unchecked() }
        }
    };
}

pub(crate) use {at, at_mut, format, full, nowhere, prove, vec};
