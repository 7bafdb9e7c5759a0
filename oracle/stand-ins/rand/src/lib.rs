//! Ours: a stand-in for rand. Only what is left behind names it (the generators,
//! shuffling, sampling). It holds the names that must resolve; drawing panics.

fn left_behind() -> ! {
    panic!("rand is a stand-in here: nothing that draws is carried")
}

pub trait Rng {}

pub trait RngExt {
    fn random_range<T>(&mut self, _range: std::ops::Range<T>) -> T {
        left_behind()
    }
}
impl<R: Rng + ?Sized> RngExt for R {}

pub trait SeedableRng: Sized {
    fn seed_from_u64(seed: u64) -> Self;
}

pub fn rng() -> rngs::ThreadRng {
    rngs::ThreadRng
}

pub mod rngs {
    pub struct StdRng;
    impl super::Rng for StdRng {}
    impl super::SeedableRng for StdRng {
        fn seed_from_u64(_seed: u64) -> Self {
            StdRng
        }
    }

    pub struct ThreadRng;
    impl super::Rng for ThreadRng {}
}

pub mod seq {
    pub trait IndexedRandom<T> {
        fn sample<R: super::Rng>(&self, _rng: &mut R, _count: usize) -> std::slice::Iter<'_, T> {
            super::left_behind()
        }
    }
    impl<T> IndexedRandom<T> for [T] {}

    pub trait SliceRandom {
        fn shuffle<R: super::Rng>(&mut self, _rng: &mut R) {
            super::left_behind()
        }
    }
    impl<T> SliceRandom for [T] {}
}
