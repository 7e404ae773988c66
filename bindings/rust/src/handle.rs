//! What has a handle of the library: threads may have it, one call at a time, it is shown by its name
//! alone, and is freed where it ends.

macro_rules! has_handle {
    ($name:ident, $free:path) => {
        // SAFETY: what a handle points to is its own, from the program's allocator, and the library
        // has no global and nothing of a thread's: as the header says, any thread may use and free
        // it, one call at a time.
        unsafe impl Send for $name {}

        // SAFETY: a shared reference reaches nothing: each call takes an exclusive one.
        unsafe impl Sync for $name {}

        impl std::fmt::Debug for $name {
            fn fmt(&self, f: &mut std::fmt::Formatter<'_>) -> std::fmt::Result {
                f.debug_struct(stringify!($name)).finish_non_exhaustive()
            }
        }

        impl Drop for $name {
            fn drop(&mut self) {
                // SAFETY: the handle is one of these, or none.
                unsafe { $free(&mut self.handle) }
            }
        }
    };
}

pub(crate) use has_handle;
