// SPDX-FileCopyrightText: 2023 IBM Corporation
// SPDX-FileContributor: Wojciech Ozga <woz@zurich.ibm.com>, IBM Research - Zurich
// SPDX-License-Identifier: Apache-2.0
// Changed: security-monitor/src/core/page_allocator/allocator.rs of IBM/ACE-RISCV 7278c217e6, with the edits listed in EDITS.md.
use super::page_size::PageSize;
use super::stand_ins::Error;
use super::stand_ins::{ConfidentialMemoryAddress, MemoryLayout};
use super::stand_ins::{Page, UnAllocated};
use super::stand_ins::{ensure, ensure_not};

/// This is a root node that represents the largest possible page size. Because of this implementation, there can be a maximum one page
/// token of the maximum size, and it will be then stored in the root node. It is reasonable as long as we do not support systems that have
/// more memory than 128TiB. For such systems, we must add larger page sizes.
/// Specification:
/// Invariant: We abstract over the root node
/// Invariant: the allocator tree covers the first 128TiB of memory
/// Invariant: the page size is the largest
pub struct PageAllocator {
    base_address: usize,
    page_size: PageSize,
    root: PageStorageTreeNode,
}

impl PageAllocator {
    /// Initializes the global memory allocator with the given memory region as confidential memory. Must be called only once during the
    /// system initialization.
    ///
    /// # Arguments
    ///
    /// Both `memory_start` and `memory_end` must be aligned to 4KiB page boundaries.
    ///
    /// # Safety
    ///
    /// Caller must pass the ownership of the memory region [memory_start, memory_end).
    /// Precondition: The start and end addresses need to be aligned to the minimum page size.
    /// Precondition: The memory range is positive.

    /// Precondition: The memory range is within the region covered by the page allocator.
    /// Precondition: The pointer has valid provenance to access machine memory.

    /// Precondition: We have ownership of the memory range, having (memory_end - memory_start) bytes.

    /// Precondition: The memory needs to be in confidential memory

    /// Precondition: The page allocator should be uninitialized.
    /// Postcondition: The page allocator is initialized.
    pub fn initialize(memory_start: ConfidentialMemoryAddress, memory_end: usize) -> Result<Self, Error> {
        let mut page_allocator = Self::empty();
        page_allocator.add_memory_region(memory_start, memory_end)?;
        Ok(page_allocator)
    }

    /// Specification:
    /// Postcondition: an initialized memory allocator is returned
    pub(super) fn empty() -> Self {
        Self { root: PageStorageTreeNode::empty(), base_address: 0, page_size: PageSize::largest() }
    }

    /// Find the largest page size we can create a page at.
    /// Precondition: The current address is aligned to the given page size.
    /// Precondition: The current address is in bounds of the given memory region.
    /// Precondition: The current address and the bound are in bounds of the global memory layout.
    /// Postcondition: The current address is aligned to the returned page size.
    /// Postcondition: Either the returned page size is the smallest page size, or a page at the
    /// returned size will fit into the memory region.
    fn find_largest_page_size(
        memory_layout: &MemoryLayout, mut page_size: PageSize, address: ConfidentialMemoryAddress, memory_region_end: usize,
    ) -> PageSize {
        // Let's find the largest possible size of a page that could align to this address.
        // According to the RISC-V spec, pages must be aligned to their size.
        while let Some(larger_size) = page_size.larger().filter(|larger_size| address.is_aligned_to(larger_size.in_bytes())) {
            page_size = larger_size;
        }
        // After the loop, we have the largest possible `page_size` for which the `address` is
        // well-aligned.

        // Now let's find the largest size of a page that really fits in the given memory region. We do not have to check the alignment,
        // because the larger pages sizes are multiples of the smaller page sizes.
        while memory_layout.confidential_address_at_offset_bounded(&address, page_size.in_bytes() - 1, memory_region_end).is_err()
            && let Some(smaller_size) = page_size.smaller()
        {
            page_size = smaller_size;
        }
        // After the loop, we know that either no smaller page size exists, or a page at `page_size` fits in the memory region.

        page_size
    }

    /// Precondition: The start and end addresses need to be aligned to the minimum page size.
    /// Precondition: The memory range is positive.
    /// Precondition: The pointer has valid provenance to access machine memory.

    /// Precondition: We have ownership of the memory range, having (mend - mstart) bytes.

    /// Precondition: The memory layout needs to be initialized
    /// Precondition: the whole memory region should be part of confidential memory
    /// Precondition: The memory range is within the region covered by the memory allocator.
    pub(super) fn add_memory_region(
        &mut self, memory_region_start: ConfidentialMemoryAddress, memory_region_end: usize,
    ) -> Result<(), Error> {
        assert!(memory_region_start.is_aligned_to(PageSize::smallest().in_bytes()));
        assert!(memory_region_end.is_multiple_of(PageSize::smallest().in_bytes()));
        assert!(memory_region_start.as_usize() < memory_region_end);
        // The page allocator can only handle memory regions up to the largest page size.
        ensure_not!(memory_region_end > self.page_size.in_bytes(), Error::TooMuchMemory())?;

        // Our strategy is to create as few page tokens as possible to keep the memory overhead as low as possible. Therefore, we prefer to
        // create page tokens for the largest page size when possible. We use a greedy approach. We look for the largest possible page that
        // can be accomodated for the given address and create a page token for it. We start with the smallest possible page size and then
        // keep increasing it until we find the largest possible page size. Then, we keep decreasing the page size until we reach the end of
        // the memory region.
        let memory_layout = MemoryLayout::read();
        let mut address = memory_region_start;
        let mut page_size = PageSize::smallest();

        // We might have to create a few tokens of 4KiB until we reach the address at which we can fit a 2MiB page. Then, we might have to
        // create a few tokens for 2MiB pages until we get the address where 1 GiB page would fit. Consider the following example,
        // where we first create 7x 4 KiB tokens (++), then 3x 2 MiB tokens (**), and only then start creating 1 GiB tokens (##).
        //
        //      ++ ++ ++ ++ ++ ++ ++  ***********************  ***********************  ***********************  ####
        // ||  |  |  |  |  |  |  |  ||  |  |  |  |  |  |  |  ||  |  |  |  |  |  |  |  ||  |  |  |  |  |  |  |  || ...
        //     ^memory_region_start  ^2 MiB                   ^2 MiB                   ^2 MiB                   ^1GiB
        //
        // At certain point we will not be able to fit more page tokens of the highest size (1GiB in our example) because remaining space
        // will be lower than the used page size. We might, however, still fit tokens of smaller sizes. This will be a analogous (but
        // opposite) situation to the one presented above. According to the following example, we will fit 3x 2 MiB (**) and 4x 4 KiB (++)
        // page tokens to the remaining memory region.
        //
        //   ***********************  ***********************  ***********************  ++ ++ ++ ++
        // ||  |  |  |  |  |  |  |  ||  |  |  |  |  |  |  |  ||  |  |  |  |  |  |  |  ||  |  |  |  |  |  |  |  || ...
        //  ^1 GiB                   ^2 MiB                   ^2 MiB                   ^2 MiB      ^memory_region_end

        let node = &mut self.root;
        loop {
            // get the largest well-aligned address that fits into the memory region
            page_size = Self::find_largest_page_size(memory_layout, page_size, address, memory_region_end);

            // Check that we can actually create the page
            if memory_layout.confidential_address_at_offset_bounded(&address, page_size.in_bytes() - 1, memory_region_end).is_ok() {
                let new_page_token = Page::<UnAllocated>::init(address, page_size);
                // NOTE: We show that the page token is within the range of the allocator
                node.store_page_token(self.base_address, self.page_size, new_page_token);
            }

            // The following line ensures that the while loop will progress because, regardless of whether we manage to create a page token
            // or not, we will increment the `memory_address` in each loop so that it eventually passes the end of the given memory region.
            let Ok(new_addr) = memory_layout.confidential_address_at_offset_bounded(&address, page_size.in_bytes(), memory_region_end)
            else {
                // we passed beyond the memory region
                break;
            };
            address = new_addr;
        }
        Ok(())
    }

    /// Returns a page token that has ownership over an unallocated memory region of the requested size. Returns error if it could not
    /// obtain write access to the global instance of the page allocator or if there are not enough page tokens satisfying the requested
    /// criteria.
    /// Precondition: We require the page allocator to be initialized.
    /// Precondition: We require the global memory layout to be initialized.
    /// Postcondition: If a page is returned, it has the right size.
    pub fn acquire_page(&mut self, page_size_to_allocate: PageSize) -> Result<Page<UnAllocated>, Error> {
        let base_address = self.base_address;
        let page_size = self.page_size;
        self.root.acquire_page_token(base_address, page_size, page_size_to_allocate)
    }

    /// Consumes the page tokens given by the caller, allowing for their further acquisition. This is equivalent to deallocation of the
    /// physical memory region owned by the returned page tokens. Given vector of pages might contains pages of arbitrary sizes.
    /// Precondition: We require the page allocator to be initialized.
    /// Precondition: We require the global memory layout to be initialized.
    pub fn release_pages(&mut self, released_pages: Vec<Page<UnAllocated>>) {
        let base_address = self.base_address;
        let page_size = self.page_size;
        let root_node = &mut self.root;
        for page_token in released_pages {
            root_node.store_page_token(base_address, page_size, page_token);
        }
    }
}

/// A node of a tree data structure that stores page tokens and maintains additional metadata that simplifies acquisition and
/// release of page tokens.
/// Specification:
/// We abstract over the components stored here
/// Invariant: The representation invariant linking all these things together holds.
/// Invariant: The whole address space of this node is in addressable memory.
struct PageStorageTreeNode {
    // Page token owned by this node. `None` means that this page token has already been allocated or that it has been divided into smaller
    // pages token that were stored in this node's children.
    page_token: Option<Page<UnAllocated>>,
    // Specifies what size of the page token can be allocated by exploring the tree starting at this node.
    // Invariant: if page token exist, then the its size is the max allocable size. Otherwise, the max allocable page size is the max
    // allocable page size of children
    max_allocable_page_size: Option<PageSize>,
    // Invariant: Children store page tokens smaller than the page token stored in the parent node
    children: Vec<Self>,
}

impl PageStorageTreeNode {
    /// Creates a new empty node with no allocation.
    /// Specification:
    /// We can choose an arbitrary node size and base address.
    /// Precondition: the base address needs to be suitably aligned.
    /// Precondition: the whole memory range is in addressable memory.
    /// Postcondition: we get a node with no available pages.
    fn empty() -> Self {
        Self { page_token: None, max_allocable_page_size: None, children: vec![] }
    }

    /// Recursively traverses the tree until it reaches the node that can store the given page token. Returns the largest size of a page
    /// token that can be allocated from this node. This method has the max depth of recusrive invocation equal to the number of
    /// PageSize variants. This method has an upper bounded computation complexity.
    ///
    /// Precondition: The size and base address arguments match the logical state.
    /// Precondition: The token we store has a smaller-or-equal size than the node.
    /// Precondition: The page token is within the range of the node.
    /// Postcondition: The now available size is at least the size that we stored.
    /// Postcondition: This node has been changed...
    /// ...and now it can allocate a page of the size given by the return value
    /// ...which is at least the size of the token that was stored
    /// ...and which is at least as large as the size we could allocate before
    /// ...and which is bounded by the node's size (this is an artifact of the proof)
    /// ...while the rest is unchanged
    fn store_page_token(
        &mut self, this_node_base_address: usize, this_node_page_size: PageSize, page_token: Page<UnAllocated>,
    ) -> PageSize {
        assert!(this_node_page_size >= page_token.size());
        if this_node_page_size == page_token.size() {
            // End of recursion, we found the node that can store the page token.
            assert!(this_node_base_address == page_token.start_address());
            assert!(this_node_page_size == page_token.size());
            // For verification: to unfold invariant.
            let _ = &self.max_allocable_page_size;

            self.store_page_token_in_this_node(page_token);
        } else {
            assert!(this_node_page_size.smaller().is_some());
            self.initialize_children_if_needed(this_node_page_size);

            // For verification: to unfold invariant.
            let _ = &self.max_allocable_page_size;

            // Calculate which child should we invoke recursively.
            let index = Self::calculate_child_index(this_node_base_address, this_node_page_size, &page_token);
            // Let's go recursively to the node where this page belongs to.
            let (child_base_address, child_page_size) = Self::child_address_and_size(this_node_base_address, this_node_page_size, index);
            let allocable_page_size = self.children[index].store_page_token(child_base_address, child_page_size, page_token);
            // We are coming back from the recursion.
            // Update the size, in case the recursion increased the allocable size.
            self.max_allocable_page_size = self.max_allocable_page_size.max(Some(allocable_page_size));
            // In case this token became mergeable, merge.
            // Safety: The children are initialized.
            self.try_to_merge_page_tokens(this_node_page_size);
        }
        self.max_allocable_page_size.unwrap()
    }

    /// Recursively traverses the tree to reach a node that contains the page token of the requested size and returns this page token. This
    /// function returns also a set of page size that are not allocable anymore at the node. This method has the max depth of recusrive
    /// invocation equal to the number of PageSize variants. This method has an upper bounded computation complexity.
    /// Precondition: The size and base address arguments match the logical state.
    /// Precondition: The global memory layout is initialized.
    /// Postcondition: This node has been changed...
    /// Postcondition: the size and base address remain unchanged
    /// Postcondition: It can allocate at most the node size (proof artifact).
    /// Postcondition: The function succeeds and returns a page iff the allocable page size of the
    /// node is at least the required page size.
    /// Postcondition: if it succeeds, the returned page has the desired size.
    fn acquire_page_token(
        &mut self, this_node_base_address: usize, this_node_page_size: PageSize, page_size_to_acquire: PageSize,
    ) -> Result<Page<UnAllocated>, Error> {
        ensure!(self.max_allocable_page_size >= Some(page_size_to_acquire), Error::OutOfPages())?;
        if this_node_page_size == page_size_to_acquire {
            // End of recursion, we found the node from which we acquire a page token.
            assert!(self.page_token.is_some());
            let page_token = self.acquire_page_token_from_this_node();
            assert!(this_node_base_address == page_token.start_address());
            assert!(this_node_page_size == page_token.size());

            Ok(page_token)
        } else {
            // We are too high in the tree, i.e., the current level represents page size allocations that are larger than the page size
            // that was requested.
            assert!(this_node_page_size.smaller().is_some());
            // Lazily initialize children
            self.initialize_children_if_needed(this_node_page_size);

            // Because we are looking for a page token of a smaller size, we must divide the page token owned by this node, if that has
            // not yet occured.
            self.divide_page_token_if_necessary(this_node_base_address, this_node_page_size);

            // Let's get the index of the first child that has requested allocation.
            // This will succeed because we already checked above that the desired size can be acquired.
            let index = self.children.iter().position(|node| node.max_allocable_page_size >= Some(page_size_to_acquire)).unwrap();

            let (child_base_address, child_page_size) = Self::child_address_and_size(this_node_base_address, this_node_page_size, index);
            // Invoke recursively this function to traverse to a node containing a page token of the requested size.
            // The below unwrap is ok because we found an index of a node that has requested allocation.
            let page_token = self.children[index].acquire_page_token(child_base_address, child_page_size, page_size_to_acquire).unwrap();
            // Let's refresh information about the largest allocable page size available in children.
            self.max_allocable_page_size = self.children.iter().map(|child| child.max_allocable_page_size).max().flatten();
            Ok(page_token)
        }
    }

    /// Creates children for the given node because the node gets created with an empty list of children, expecting that children will be
    /// created lazily with this function.
    /// Precondition: the page size argument has to match the node's logical state.
    /// Precondition: there is a smaller page size.
    /// Postcondition: leaves the page node unchanged except for initializing the children if necessary
    fn initialize_children_if_needed(&mut self, this_node_page_size: PageSize) {
        if self.children.is_empty() {
            self.children = (0..this_node_page_size.number_of_smaller_pages()).map(|_| Self::empty()).collect();
        }
    }

    /// Stores the given page token in the current node.
    ///
    /// Invariant: if there is page token then all page size equal or lower than the page token are allocable from this node.
    ///
    /// Precondition: the token's size is equal to this node's size
    /// Precondition: the token's address matches the node's address
    /// Postcondition: the node changes to the available state
    fn store_page_token_in_this_node(&mut self, page_token: Page<UnAllocated>) {
        // TODO: add back the assert!
        //assert!(self.page_token.is_none());
        self.max_allocable_page_size = Some(page_token.size());
        self.page_token = Some(page_token);
    }

    /// Returns an ownership of a page token that has been stored in this node.
    ///
    /// Precondition: The token in this node is fully available.
    /// Postcondition: The returned token's size matches the node's size.
    /// Postcondition: The returned token's address matches the node's address.
    /// Postcondition: The node has been updated to the unavailable state.
    fn acquire_page_token_from_this_node(&mut self) -> Page<UnAllocated> {
        assert!(self.page_token.is_some());
        self.max_allocable_page_size = None;
        self.page_token.take().unwrap()
    }

    /// Divides the page token into smaller page tokens.
    /// Precondition: The global memory layout is initialized.
    /// Precondition: The argument base address and size match the node's logical state.
    /// Precondition: The children are initialized.
    /// Precondition: There is a smaller node size.
    /// Postcondition: The node is updated, being able to allocate at most [smaller_size].
    fn divide_page_token_if_necessary(&mut self, this_node_base_address: usize, this_node_page_size: PageSize) {
        if let Some(token) = self.page_token.take() {
            let smaller_pages = token.divide();
            assert!(smaller_pages.len() == self.children.len());

            let children = &mut self.children;
            for smaller_page_token in smaller_pages {
                let index = Self::calculate_child_index(this_node_base_address, this_node_page_size, &smaller_page_token);
                children[index].store_page_token_in_this_node(smaller_page_token);
            }
            let smaller_size = this_node_page_size.smaller().unwrap();
            self.max_allocable_page_size = Some(smaller_size);
        }
    }

    /// Merges page tokens owned by children.
    /// Safety: Requires that all children have been initialized.
    /// Precondition: The children are initialized.
    /// Precondition: There is a smaller page size.
    /// Precondition: the argument page size matches the node's page size
    /// Postcondition: this node has been updated to a new state.
    /// Postcondition: the state is either unchanged, or the whole node is available now.
    fn try_to_merge_page_tokens(&mut self, this_node_page_size: PageSize) {
        if self.children.iter().all(|child| child.page_token.is_some()) {
            // All children have page tokens, thus we can merge them.
            let pages_to_merge = self.children.iter_mut().map(|child| child.acquire_page_token_from_this_node()).collect();

            // Safety: Safe, because all children are initialized and have a page token available.
            let merged_token = Page::merge(pages_to_merge, this_node_page_size);
            assert!(merged_token.size() == this_node_page_size);
            self.page_token = Some(merged_token);
            self.max_allocable_page_size = Some(this_node_page_size);
        }
    }

    /// Returns the index of a child that can store the page token.
    /// Precondition: There is a smaller page size.
    /// Precondition: The token's page size is smaller than this node's size.
    /// Precondition: The token is within the range of this node.
    /// Postcondition: such that there is a matching child
    /// Postcondition: The page is within the range of the child node.
    fn calculate_child_index(this_node_base_address: usize, this_node_page_size: PageSize, page_token: &Page<UnAllocated>) -> usize {
        assert!(this_node_page_size > page_token.size());
        let index = (page_token.start_address() - this_node_base_address) / this_node_page_size.smaller().unwrap().in_bytes();
        index
    }

    /// Returns the base address and the page size of the child at the given index
    ///
    /// Invariant: children have been created
    /// There exist children
    /// Precondition: the child index is in range
    /// Postcondition: Returns a tuple of the child's base address and its size.
    fn child_address_and_size(this_node_base_address: usize, this_node_page_size: PageSize, index: usize) -> (usize, PageSize) {
        assert!(this_node_page_size.smaller().is_some());
        let child_base_address = this_node_base_address + index * this_node_page_size.smaller().unwrap().in_bytes();
        let child_page_size = this_node_page_size.smaller().unwrap();
        (child_base_address, child_page_size)
    }
}

// Added for the comparison: the original uses none of these.
impl PageAllocator {
    /// The largest page size at an address of a region.
    pub(super) fn largest_page_size_at(address: ConfidentialMemoryAddress, memory_region_end: usize) -> PageSize {
        Self::find_largest_page_size(MemoryLayout::read(), PageSize::smallest(), address, memory_region_end)
    }

    /// The child of a node, and the index of the page that it would hold.
    pub(super) fn child_of(node_base_address: usize, node_page_size: PageSize, index: usize) -> (usize, PageSize, usize) {
        let (base_address, page_size) = PageStorageTreeNode::child_address_and_size(node_base_address, node_page_size, index);
        let page_token = Page::init(ConfidentialMemoryAddress::new(base_address), page_size);
        let back = PageStorageTreeNode::calculate_child_index(node_base_address, node_page_size, &page_token);
        (base_address, page_size, back)
    }

    /// How many words the opened nodes would take in a pool: one for the root, and for each node with children one more than it has.
    pub fn opened_words(&self) -> usize {
        1 + self.root.opened_words()
    }

    /// The largest page size that the root offers.
    pub fn max_allocable_page_size(&self) -> Option<PageSize> {
        self.root.max_allocable_page_size
    }
}

impl PageStorageTreeNode {
    fn opened_words(&self) -> usize {
        if self.children.is_empty() { 0 } else { 1 + self.children.len() + self.children.iter().map(Self::opened_words).sum::<usize>() }
    }
}
