//! Stand-in for the crate `rand`: a generator that answers 0. Only the original
//! integration.rs draws from it (oracle-bindist), where every bin has one value,
//! so that no draw reaches a result.

pub use rand_core::RngCore;

pub mod rngs {
    #[derive(Debug, Clone)]
    pub struct ThreadRng;

    impl super::RngCore for ThreadRng {
        fn next_u32(&mut self) -> u32 {
            0
        }

        fn next_u64(&mut self) -> u64 {
            0
        }

        fn fill_bytes(&mut self, dest: &mut [u8]) {
            dest.fill(0)
        }
    }
}

pub fn rng() -> rngs::ThreadRng {
    rngs::ThreadRng
}

pub trait Rng: RngCore {
    fn random<T: From<f32>>(&mut self) -> T {
        T::from(0.0)
    }

    fn random_range(&mut self, range: std::ops::Range<f64>) -> f64 {
        range.start
    }
}

impl<R: RngCore> Rng for R {}
