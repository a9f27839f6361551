//! An array of which only the front is set, so that to make one takes no time for the rest.

use std::mem::MaybeUninit;

/// Up to so many items; further ones are counted and not held.
pub struct Filled<T: Copy, const MOST: usize> {
    items: [MaybeUninit<T>; MOST],
    count: usize,
}

impl<T: Copy, const MOST: usize> Filled<T, MOST> {
    #[inline(always)]
    pub fn new() -> Filled<T, MOST> {
        Filled { items: [MaybeUninit::uninit(); MOST], count: 0 }
    }

    /// So many of one item.
    #[inline(always)]
    pub fn of(item: T, count: usize) -> Filled<T, MOST> {
        let mut filled = Filled::new();
        filled.items[..count].iter_mut().for_each(|place| *place = MaybeUninit::new(item));
        filled.count = count;
        filled
    }

    #[inline(always)]
    pub fn push(&mut self, item: T) {
        if let Some(place) = self.items.get_mut(self.count) {
            *place = MaybeUninit::new(item);
        }
        self.count += 1;
    }

    #[inline(always)]
    pub fn pop(&mut self) -> Option<T> {
        let last = self.items().last().copied()?;
        self.count -= 1;
        Some(last)
    }

    /// All that were put, held or not.
    #[inline(always)]
    pub fn count(&self) -> usize {
        self.count
    }

    #[inline(always)]
    pub fn items(&self) -> &[T] {
        let set = &self.items[..self.count.min(MOST)];
        // SAFETY: the first `count` items are set.
        unsafe { &*(set as *const [MaybeUninit<T>] as *const [T]) }
    }

    #[inline(always)]
    pub fn items_mut(&mut self) -> &mut [T] {
        let set = &mut self.items[..self.count.min(MOST)];
        // SAFETY: the first `count` items are set.
        unsafe { &mut *(set as *mut [MaybeUninit<T>] as *mut [T]) }
    }
}

impl<T: Copy, const MOST: usize> Clone for Filled<T, MOST> {
    fn clone(&self) -> Filled<T, MOST> {
        let mut copy = Filled::new();
        self.items().iter().for_each(|&item| copy.push(item));
        copy
    }
}
