//! Stand-in for the crate `rand_core`: the two traits that the simulator names.

pub trait RngCore {
    fn next_u32(&mut self) -> u32;
    fn next_u64(&mut self) -> u64;
    fn fill_bytes(&mut self, dest: &mut [u8]);
}

pub trait SeedableRng: Sized {
    fn seed_from_u64(seed: u64) -> Self;
}
