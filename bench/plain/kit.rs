//! Rattle's std, as far as `stn` needs it, over Rust's own: what allocates is given an allocator and answers a `Result`, which is
//! never an error here. Crates see this as `std`.
#![allow(warnings)]

/// Rust's own std, for macros: in the crates that call them `std` is this crate.
pub extern crate std as rust;

pub use ::std::{char, cmp, convert, fmt, hint, iter, marker, mem, num, ops, option, primitive, result, slice, str};

pub mod kit_prelude {
    pub use crate::alloc::AllocGlobal;
    pub use crate::boxed::Box;
    pub use crate::iters::{CollectIn, ToVecIn};
    pub use crate::rt::{HostRuntime, Print};
    pub use crate::string::String;
    pub use crate::vec::Vec;
    pub use crate::{Drop, assert, format, println, prove, vec};
    pub use ::std::prelude::rust_2024::{
        AsMut, AsRef, Clone, Copy, Debug, Default, DoubleEndedIterator, Eq, Err, ExactSizeIterator, Extend, Fn, FnMut, FnOnce,
        From, FromIterator, Hash, Into, IntoIterator, Iterator, None, Ok, Option, Ord, PartialEq, PartialOrd, Result, Send, Sized,
        Some, Sync, TryFrom, TryInto, Unpin, derive,
    };
}

/// Each value may be let go.
pub trait Drop {}
impl<T: ?Sized> Drop for T {}

#[macro_export]
macro_rules! vec {
    (in $alloc:expr; $value:expr; $count:expr) => {
        $crate::vec::Vec::filled($alloc, $value, $count)
    };
    (in $alloc:expr; $($value:expr),* $(,)?) => {
        $crate::vec::Vec::from_rust($alloc, $crate::rust::vec![$($value),*])
    };
}

#[macro_export]
macro_rules! format {
    (in $alloc:expr; $($text:tt)*) => {
        $crate::string::formatted($alloc, $crate::rust::format!($($text)*))
    };
}

#[macro_export]
macro_rules! println {
    ($rt:expr; $($text:tt)*) => {{
        $crate::rust::println!($($text)*);
        $crate::io::Result::<()>::Ok(())
    }};
}

#[macro_export]
macro_rules! prove {
    ($($text:tt)*) => {};
}

#[macro_export]
macro_rules! assert {
    ($rt:expr; $($text:tt)*) => {
        $crate::rust::assert!($($text)*)
    };
}

/// The end of a program, whatever its `main` answers.
pub trait Ended {
    fn ended(self) -> ::std::process::ExitCode;
}

impl Ended for ::std::process::ExitCode {
    fn ended(self) -> ::std::process::ExitCode {
        self
    }
}

impl<E: ::std::fmt::Display> Ended for Result<(), E> {
    fn ended(self) -> ::std::process::ExitCode {
        match self {
            Ok(()) => ::std::process::ExitCode::SUCCESS,
            Err(error) => {
                eprintln!("{error}");
                ::std::process::ExitCode::FAILURE
            }
        }
    }
}

pub mod alloc {
    /// The allocator, which is Rust's own.
    #[derive(Clone, Copy)]
    pub struct Global;

    #[derive(Clone, Copy, Debug)]
    pub struct AllocError;

    impl From<AllocError> for ::std::io::Error {
        fn from(_error: AllocError) -> ::std::io::Error {
            ::std::io::ErrorKind::OutOfMemory.into()
        }
    }

    /// What was not put for want of memory; it never comes.
    #[derive(Clone, Copy, Debug)]
    pub struct AllocFailed<T>(pub T);

    pub trait AllocGlobal {
        fn alloc(&self) -> Global;
    }

    impl AllocGlobal for crate::rt::HostRuntime {
        fn alloc(&self) -> Global {
            Global
        }
    }
}

pub mod vec {
    use crate::alloc::{AllocError, Global};
    use ::std::ops::{Deref, DerefMut};

    #[derive(Debug, PartialEq, Eq, PartialOrd, Ord)]
    pub struct Vec<T>(pub(crate) ::std::vec::Vec<T>);

    impl<T> Vec<T> {
        #[inline(always)]
        pub fn new(_alloc: Global) -> Vec<T> {
            Vec(::std::vec::Vec::new())
        }

        #[inline(always)]
        pub fn with_capacity(_alloc: Global, count: usize) -> Result<Vec<T>, AllocError> {
            Ok(Vec(::std::vec::Vec::with_capacity(count)))
        }

        #[inline(always)]
        pub fn from_slice(_alloc: Global, items: &[T]) -> Result<Vec<T>, AllocError>
        where
            T: Copy,
        {
            Ok(Vec(items.to_vec()))
        }

        #[inline(always)]
        pub fn from_rust(_alloc: Global, items: ::std::vec::Vec<T>) -> Result<Vec<T>, AllocError> {
            Ok(Vec(items))
        }

        #[inline(always)]
        pub fn filled(_alloc: Global, value: T, count: usize) -> Result<Vec<T>, AllocError>
        where
            T: Clone,
        {
            Ok(Vec(::std::vec![value; count]))
        }

        #[inline(always)]
        pub fn as_slice(&self) -> &[T] {
            &self.0
        }

        #[inline(always)]
        pub fn as_mut_slice(&mut self) -> &mut [T] {
            &mut self.0
        }

        #[inline(always)]
        pub fn capacity(&self) -> usize {
            self.0.capacity()
        }

        #[inline(always)]
        pub fn push(&mut self, item: T) -> Result<(), AllocError> {
            self.0.push(item);
            Ok(())
        }

        #[inline(always)]
        pub fn push_reserved(&mut self, item: T) {
            self.0.push(item);
        }

        #[inline(always)]
        pub fn pop(&mut self) -> Option<T> {
            self.0.pop()
        }

        #[inline(always)]
        pub fn clear(&mut self) {
            self.0.clear();
        }

        #[inline(always)]
        pub fn truncate(&mut self, count: usize) {
            self.0.truncate(count);
        }

        #[inline(always)]
        pub fn reserve(&mut self, more: usize) -> Result<(), AllocError> {
            self.0.reserve(more);
            Ok(())
        }

        #[inline(always)]
        pub fn resize(&mut self, count: usize, value: T) -> Result<(), AllocError>
        where
            T: Clone,
        {
            self.0.resize(count, value);
            Ok(())
        }

        #[inline(always)]
        pub fn extend_from_slice(&mut self, items: &[T]) -> Result<(), AllocError>
        where
            T: Clone,
        {
            self.0.extend_from_slice(items);
            Ok(())
        }

        #[inline(always)]
        pub fn append(&mut self, other: &mut Vec<T>) -> Result<(), AllocError> {
            self.0.append(&mut other.0);
            Ok(())
        }

        #[inline(always)]
        pub fn insert(&mut self, place: usize, item: T) -> Result<(), AllocError> {
            self.0.insert(place, item);
            Ok(())
        }

        #[inline(always)]
        pub fn remove(&mut self, place: usize) -> T {
            self.0.remove(place)
        }

        #[inline(always)]
        pub fn swap_remove(&mut self, place: usize) -> T {
            self.0.swap_remove(place)
        }
    }

    impl<T> Deref for Vec<T> {
        type Target = [T];

        #[inline(always)]
        fn deref(&self) -> &[T] {
            &self.0
        }
    }

    impl<T> DerefMut for Vec<T> {
        #[inline(always)]
        fn deref_mut(&mut self) -> &mut [T] {
            &mut self.0
        }
    }

    impl<T> IntoIterator for Vec<T> {
        type Item = T;
        type IntoIter = ::std::vec::IntoIter<T>;

        #[inline(always)]
        fn into_iter(self) -> ::std::vec::IntoIter<T> {
            self.0.into_iter()
        }
    }

    impl<'a, T> IntoIterator for &'a Vec<T> {
        type Item = &'a T;
        type IntoIter = ::std::slice::Iter<'a, T>;

        #[inline(always)]
        fn into_iter(self) -> ::std::slice::Iter<'a, T> {
            self.0.iter()
        }
    }

    impl<'a, T> IntoIterator for &'a mut Vec<T> {
        type Item = &'a mut T;
        type IntoIter = ::std::slice::IterMut<'a, T>;

        #[inline(always)]
        fn into_iter(self) -> ::std::slice::IterMut<'a, T> {
            self.0.iter_mut()
        }
    }
}

pub mod iters {
    use crate::alloc::{AllocError, Global};
    use crate::vec::Vec;

    /// `collect` with an allocator.
    pub trait CollectIn: Iterator + Sized {
        fn collect_in(self, _alloc: Global) -> Result<Vec<Self::Item>, AllocError> {
            Ok(Vec(self.collect()))
        }
    }

    impl<I: Iterator> CollectIn for I {}

    /// `to_vec` with an allocator.
    pub trait ToVecIn<T> {
        fn to_vec_in(&self, alloc: Global) -> Result<Vec<T>, AllocError>;
    }

    impl<T: Copy> ToVecIn<T> for [T] {
        fn to_vec_in(&self, alloc: Global) -> Result<Vec<T>, AllocError> {
            Vec::from_slice(alloc, self)
        }
    }
}

pub mod boxed {
    use crate::alloc::{AllocError, Global};
    use ::std::ops::{Deref, DerefMut};

    pub struct Box<T>(::std::boxed::Box<T>);

    impl<T> Box<T> {
        pub fn new(_alloc: Global, value: T) -> Result<Box<T>, AllocError> {
            Ok(Box(::std::boxed::Box::new(value)))
        }
    }

    impl<T> Deref for Box<T> {
        type Target = T;

        fn deref(&self) -> &T {
            &self.0
        }
    }

    impl<T> DerefMut for Box<T> {
        fn deref_mut(&mut self) -> &mut T {
            &mut self.0
        }
    }
}

pub mod string {
    use crate::alloc::{AllocError, Global};
    use ::std::borrow::Borrow;
    use ::std::fmt;
    use ::std::ops::Deref;

    #[derive(Debug, PartialEq, Eq, PartialOrd, Ord, Hash)]
    pub struct String(pub(crate) ::std::string::String);

    pub fn formatted(_alloc: Global, text: ::std::string::String) -> Result<String, AllocError> {
        Ok(String(text))
    }

    impl String {
        pub fn new(_alloc: Global) -> String {
            String(::std::string::String::new())
        }

        pub fn from_str(_alloc: Global, text: &str) -> Result<String, AllocError> {
            Ok(String(text.into()))
        }

        pub fn as_str(&self) -> &str {
            &self.0
        }

        pub fn push_str(&mut self, text: &str) -> Result<(), AllocError> {
            self.0.push_str(text);
            Ok(())
        }

        pub fn push(&mut self, letter: char) -> Result<(), AllocError> {
            self.0.push(letter);
            Ok(())
        }

        pub fn from_utf8_lossy(_alloc: Global, bytes: &[u8]) -> Result<String, AllocError> {
            Ok(String(::std::string::String::from_utf8_lossy(bytes).into_owned()))
        }

        /// What `write!` calls.
        pub fn write_fmt(&mut self, text: fmt::Arguments<'_>) -> Result<(), AllocError> {
            fmt::Write::write_fmt(&mut self.0, text).map_err(|_| AllocError)
        }

        pub fn of_rust(text: ::std::string::String) -> String {
            String(text)
        }
    }

    impl Deref for String {
        type Target = str;

        fn deref(&self) -> &str {
            &self.0
        }
    }

    impl Borrow<str> for String {
        fn borrow(&self) -> &str {
            &self.0
        }
    }

    impl fmt::Display for String {
        fn fmt(&self, to: &mut fmt::Formatter<'_>) -> fmt::Result {
            self.0.fmt(to)
        }
    }
}

pub mod collections {
    use crate::alloc::{AllocError, Global};
    use ::std::borrow::Borrow;
    use ::std::collections as rust;
    use ::std::ops::{Deref, DerefMut};

    macro_rules! over {
        ($name:ident<$($part:ident),*>) => {
            impl<$($part),*> Deref for $name<$($part),*> {
                type Target = rust::$name<$($part),*>;

                #[inline(always)]
                fn deref(&self) -> &Self::Target {
                    &self.0
                }
            }

            impl<$($part),*> DerefMut for $name<$($part),*> {
                #[inline(always)]
                fn deref_mut(&mut self) -> &mut Self::Target {
                    &mut self.0
                }
            }
        };
    }

    pub struct BTreeMap<K, V>(rust::BTreeMap<K, V>);
    pub struct VecDeque<T>(rust::VecDeque<T>);
    pub struct BinaryHeap<T>(rust::BinaryHeap<T>);

    over!(BTreeMap<K, V>);
    over!(VecDeque<T>);
    over!(BinaryHeap<T>);

    impl<K: Ord, V> BTreeMap<K, V> {
        pub fn new(_alloc: Global) -> BTreeMap<K, V> {
            BTreeMap(rust::BTreeMap::new())
        }

        pub fn insert(&mut self, key: K, value: V) -> Result<Option<V>, AllocError> {
            Ok(self.0.insert(key, value))
        }
    }

    impl<T> VecDeque<T> {
        pub fn new(_alloc: Global) -> VecDeque<T> {
            VecDeque(rust::VecDeque::new())
        }

        #[inline(always)]
        pub fn push_back(&mut self, item: T) -> Result<(), AllocError> {
            self.0.push_back(item);
            Ok(())
        }
    }

    impl<T: Ord> BinaryHeap<T> {
        pub fn new(_alloc: Global) -> BinaryHeap<T> {
            BinaryHeap(rust::BinaryHeap::new())
        }

        #[inline(always)]
        pub fn push(&mut self, item: T) -> Result<(), AllocError> {
            self.0.push(item);
            Ok(())
        }
    }
}

pub mod rt {
    /// What a program is given: arguments, files, printing, clocks.
    #[derive(Clone, Copy)]
    pub struct HostRuntime;

    pub trait Env {}
    pub trait Files {
        type File: ::std::io::Read + ::std::io::Write + ::std::io::Seek;

        fn opened(&self, how: &::std::fs::OpenOptions, name: &str) -> ::std::io::Result<Self::File>;
    }
    pub trait Print {}

    impl HostRuntime {
        pub fn alloc(&self) -> crate::alloc::Global {
            crate::alloc::Global
        }

        pub fn stdin(&self) -> Stdin {
            Stdin
        }
    }

    /// Standard input, read to its end.
    pub struct Stdin;

    impl Stdin {
        pub fn read_to_end(&mut self, into: &mut crate::vec::Vec<u8>) -> ::std::io::Result<usize> {
            ::std::io::Read::read_to_end(&mut ::std::io::stdin(), &mut into.0)
        }
    }

    impl Env for HostRuntime {}
    impl Print for HostRuntime {}

    impl Files for HostRuntime {
        type File = ::std::fs::File;

        fn opened(&self, how: &::std::fs::OpenOptions, name: &str) -> ::std::io::Result<::std::fs::File> {
            how.open(name)
        }
    }
}

pub mod io {
    pub use ::std::io::{Error, ErrorKind, Read, Result, Seek, SeekFrom, Write};

    /// Standard output, as it is written to.
    pub fn writer<R>(_rt: &R) -> ::std::io::Stdout {
        ::std::io::stdout()
    }
}

pub mod fs {
    use crate::rt::Files;
    use ::std::io::Result;

    pub fn read_to_string<R>(_rt: &R, name: &str) -> Result<crate::string::String> {
        Ok(crate::string::String(::std::fs::read_to_string(name)?))
    }

    /// How a file is opened.
    pub struct OpenOptions(::std::fs::OpenOptions);

    impl OpenOptions {
        pub fn new() -> OpenOptions {
            OpenOptions(::std::fs::OpenOptions::new())
        }

        pub fn read(&mut self, on: bool) -> &mut OpenOptions {
            self.0.read(on);
            self
        }

        pub fn write(&mut self, on: bool) -> &mut OpenOptions {
            self.0.write(on);
            self
        }

        pub fn create(&mut self, on: bool) -> &mut OpenOptions {
            self.0.create(on);
            self
        }

        pub fn truncate(&mut self, on: bool) -> &mut OpenOptions {
            self.0.truncate(on);
            self
        }

        pub fn append(&mut self, on: bool) -> &mut OpenOptions {
            self.0.append(on);
            self
        }

        pub fn open<R: Files>(&self, rt: &R, name: &str) -> Result<R::File> {
            rt.opened(&self.0, name)
        }
    }
}

pub mod env {
    use crate::string::String;
    use ::std::io::{Error, ErrorKind, Result};

    /// The words of the program, its name first.
    pub struct Args(::std::vec::IntoIter<String>);

    impl Iterator for Args {
        type Item = String;

        fn next(&mut self) -> Option<String> {
            self.0.next()
        }
    }

    pub fn args<R>(_rt: &R) -> Result<Args> {
        let mut words = ::std::vec::Vec::new();
        for word in ::std::env::args_os() {
            let word = word.into_string().map_err(|_| Error::from(ErrorKind::InvalidData))?;
            words.push(String(word));
        }
        Ok(Args(words.into_iter()))
    }
}

pub mod process {
    pub use ::std::process::ExitCode;
}

pub mod time {
    pub use ::std::time::Duration;

    #[repr(C)]
    struct TimeSpec {
        seconds: i64,
        nanoseconds: i64,
    }

    unsafe extern "C" {
        fn clock_gettime(clock: i32, time: *mut TimeSpec) -> i32;
    }

    /// The processor time of the process so far.
    pub trait CpuClock {
        fn process_cpu_time(&self) -> crate::io::Result<Duration>;
    }

    impl CpuClock for crate::rt::HostRuntime {
        fn process_cpu_time(&self) -> crate::io::Result<Duration> {
            let mut time = TimeSpec { seconds: 0, nanoseconds: 0 };
            // The clock of the process on Linux.
            if unsafe { clock_gettime(2, &mut time) } != 0 {
                return Err(::std::io::Error::last_os_error());
            }
            Ok(Duration::new(time.seconds as u64, time.nanoseconds as u32))
        }
    }
}
