//! Stand-in for embassy_sync's blocking mutex: there is one thread, so a lock is a call.

pub mod blocking_mutex {
    use core::cell::Cell;
    use core::marker::PhantomData;
    use core::mem::size_of;

    pub mod raw {
        pub trait RawMutex {}

        pub struct NoopRawMutex;

        impl RawMutex for NoopRawMutex {}
    }

    thread_local! {
        /// Address and size of what the latest lock held: the original keeps its slots private, and they are looked at
        /// through this.
        pub static LATEST: Cell<(usize, usize)> = const { Cell::new((0, 0)) };
    }

    pub struct Mutex<M: raw::RawMutex, T> {
        inner: T,
        raw: PhantomData<M>,
    }

    impl<M: raw::RawMutex, T> Mutex<M, T> {
        pub const fn new(inner: T) -> Self {
            Self {
                inner,
                raw: PhantomData,
            }
        }

        pub fn lock<U>(&self, f: impl FnOnce(&T) -> U) -> U {
            LATEST.set((&raw const self.inner as usize, size_of::<T>()));
            f(&self.inner)
        }
    }
}
