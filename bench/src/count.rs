//! How many bytes are copied and allocated, with the feature `count`. Copies that the compiler
//! writes out in place, without a call, are not seen.

use std::ops::{Add, Sub};

#[derive(Clone, Copy, Debug, Default)]
pub struct Counted {
    pub copied: u64,
    pub allocated: u64,
}

#[derive(Clone, Copy, Debug, Default)]
pub struct Each {
    pub copied: f64,
    pub allocated: f64,
}

impl Counted {
    pub fn each(self, calls: u64) -> Each {
        let each = |number: u64| number as f64 / calls as f64;
        Each { copied: each(self.copied), allocated: each(self.allocated) }
    }
}

impl Add for Counted {
    type Output = Counted;

    fn add(self, more: Counted) -> Counted {
        let allocated = self.allocated + more.allocated;
        Counted { copied: self.copied + more.copied, allocated }
    }
}

impl Sub for Counted {
    type Output = Counted;

    fn sub(self, less: Counted) -> Counted {
        let allocated = self.allocated - less.allocated;
        Counted { copied: self.copied - less.copied, allocated }
    }
}

#[cfg(not(feature = "count"))]
pub fn now() -> Counted {
    Counted::default()
}

#[cfg(feature = "count")]
pub use counting::now;

#[cfg(feature = "count")]
mod counting {
    use std::alloc::{GlobalAlloc, Layout, System};
    use std::ffi::c_void;
    use std::sync::atomic::{AtomicU64, Ordering::Relaxed};

    use super::Counted;

    static COPIED: AtomicU64 = AtomicU64::new(0);
    static ALLOCATED: AtomicU64 = AtomicU64::new(0);

    pub fn now() -> Counted {
        Counted { copied: COPIED.load(Relaxed), allocated: ALLOCATED.load(Relaxed) }
    }

    struct Counting;

    #[global_allocator]
    static ALLOCATOR: Counting = Counting;

    unsafe impl GlobalAlloc for Counting {
        unsafe fn alloc(&self, layout: Layout) -> *mut u8 {
            ALLOCATED.fetch_add(layout.size() as u64, Relaxed);
            System.alloc(layout)
        }

        unsafe fn dealloc(&self, place: *mut u8, layout: Layout) {
            System.dealloc(place, layout)
        }
    }

    extern "C" {
        fn __real_memcpy(to: *mut c_void, from: *const c_void, bytes: usize) -> *mut c_void;
        fn __real_memmove(to: *mut c_void, from: *const c_void, bytes: usize) -> *mut c_void;
    }

    /// # Safety
    /// As memcpy's: the linker puts it in its place.
    #[no_mangle]
    pub unsafe extern "C" fn __wrap_memcpy(
        to: *mut c_void,
        from: *const c_void,
        bytes: usize,
    ) -> *mut c_void {
        COPIED.fetch_add(bytes as u64, Relaxed);
        __real_memcpy(to, from, bytes)
    }

    /// # Safety
    /// As memmove's: the linker puts it in its place.
    #[no_mangle]
    pub unsafe extern "C" fn __wrap_memmove(
        to: *mut c_void,
        from: *const c_void,
        bytes: usize,
    ) -> *mut c_void {
        COPIED.fetch_add(bytes as u64, Relaxed);
        __real_memmove(to, from, bytes)
    }
}
