//! What the two carried files need from the rest of the monitor, as small as document 01 asks: a page is a base and a
//! size, dividing gives the smaller pages in ascending order, and a page fits when base + size <= region end (an offset
//! is in bounds when base + offset < region end). The names are those of the Rust.

use super::page_size::PageSize;
use std::marker::PhantomData;

// The Rust keeps an address in a usize, a journal in 64 bits.
const _: () = assert!(usize::BITS == 64);

/// `Ok` if the condition holds, otherwise the error.
macro_rules! ensure {
    ($condition:expr, $error:expr) => {
        if $condition { Ok(()) } else { Err($error) }
    };
}

/// `Ok` if the condition does not hold, otherwise the error.
macro_rules! ensure_not {
    ($condition:expr, $error:expr) => {
        ensure!(!($condition), $error)
    };
}

pub(super) use {ensure, ensure_not};

/// The errors that the carried code names, and the one of an offset out of bounds.
#[derive(Debug, PartialEq, Eq)]
pub enum Error {
    TooMuchMemory(),
    OutOfPages(),
    AddressNotInConfidentialMemory(),
}

/// An address: a number, without memory behind it.
#[derive(Clone, Copy, Debug, PartialEq, Eq)]
pub struct ConfidentialMemoryAddress(usize);

impl ConfidentialMemoryAddress {
    pub fn new(address: usize) -> Self {
        Self(address)
    }

    pub fn as_usize(&self) -> usize {
        self.0
    }

    pub fn is_aligned_to(&self, align: usize) -> bool {
        self.0.is_multiple_of(align)
    }
}

/// The layout sets no bounds of its own: the end of the region given to each call is the only one.
pub struct MemoryLayout;

impl MemoryLayout {
    pub fn read() -> &'static MemoryLayout {
        &MemoryLayout
    }

    /// The address at the offset, if it lies below the bound. A sum past the largest number is not in bounds.
    pub fn confidential_address_at_offset_bounded(
        &self,
        address: &ConfidentialMemoryAddress,
        offset_in_bytes: usize,
        upper_bound: usize,
    ) -> Result<ConfidentialMemoryAddress, Error> {
        match address.0.checked_add(offset_in_bytes) {
            Some(sum) if sum < upper_bound => Ok(ConfidentialMemoryAddress(sum)),
            _ => Err(Error::AddressNotInConfidentialMemory()),
        }
    }
}

/// The only page state that the allocator sees; it marks a type and has no values.
#[derive(Debug)]
pub enum UnAllocated {}

/// A page: a base and a size.
#[derive(Debug)]
pub struct Page<S> {
    base: ConfidentialMemoryAddress,
    size: PageSize,
    _marker: PhantomData<S>,
}

impl Page<UnAllocated> {
    pub fn init(base: ConfidentialMemoryAddress, size: PageSize) -> Self {
        Self { base, size, _marker: PhantomData }
    }

    pub fn start_address(&self) -> usize {
        self.base.as_usize()
    }

    pub fn size(&self) -> PageSize {
        self.size
    }

    /// The smaller pages of this one, in ascending order. The allocator divides no page of the smallest size.
    pub fn divide(self) -> Vec<Page<UnAllocated>> {
        let smaller_size = self.size.smaller().unwrap();
        let number_of_smaller_pages = self.size.in_bytes() / smaller_size.in_bytes();
        let base_of = |index| self.start_address() + index * smaller_size.in_bytes();
        let page_of = |index| Self::init(ConfidentialMemoryAddress::new(base_of(index)), smaller_size);
        (0..number_of_smaller_pages).map(page_of).collect()
    }

    /// The page of the new size at the first page's base. The pages must be just those that dividing it would give, so
    /// that a tree which lost a page or took a wrong one is seen here.
    pub fn merge(from_pages: Vec<Page<UnAllocated>>, new_size: PageSize) -> Self {
        let merged = Self::init(from_pages[0].base, new_size);
        let mut end = merged.start_address();
        assert!(merged.base.is_aligned_to(new_size.in_bytes()));
        for page in &from_pages {
            assert!(Some(page.size) == new_size.smaller());
            assert!(page.start_address() == end);
            end += page.size.in_bytes();
        }
        assert!(end == merged.start_address() + new_size.in_bytes());
        merged
    }
}
