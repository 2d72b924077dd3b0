//! Stand-in for embassy_sync's blocking mutex over `NoopRawMutex`, its cheapest: a lock is a call, and costs nothing.

pub mod blocking_mutex {
    use core::marker::PhantomData;

    pub mod raw {
        pub trait RawMutex {}

        pub struct NoopRawMutex;

        impl RawMutex for NoopRawMutex {}
    }

    pub struct Mutex<M: raw::RawMutex, T> {
        inner: T,
        raw: PhantomData<M>,
    }

    impl<M: raw::RawMutex, T> Mutex<M, T> {
        pub const fn new(inner: T) -> Self {
            let raw = PhantomData;
            Self { inner, raw }
        }

        pub fn lock<U>(&self, f: impl FnOnce(&T) -> U) -> U {
            f(&self.inner)
        }
    }
}
