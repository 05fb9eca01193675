//! Stand-in for the registry crate `log`: the five macros, with no logger
//! installed. As there, the arguments are checked but not evaluated.
#![no_std]

#[macro_export]
macro_rules! error { ($($a:tt)+) => { if false { let _ = ::core::format_args!($($a)+); } } }
#[macro_export]
macro_rules! warn { ($($a:tt)+) => { if false { let _ = ::core::format_args!($($a)+); } } }
#[macro_export]
macro_rules! info { ($($a:tt)+) => { if false { let _ = ::core::format_args!($($a)+); } } }
#[macro_export]
macro_rules! debug { ($($a:tt)+) => { if false { let _ = ::core::format_args!($($a)+); } } }
#[macro_export]
macro_rules! trace { ($($a:tt)+) => { if false { let _ = ::core::format_args!($($a)+); } } }
