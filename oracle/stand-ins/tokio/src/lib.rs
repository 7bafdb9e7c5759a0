//! Ours: a stand-in for tokio. One error in the carried errors.rs wraps its
//! `JoinError`; nothing that is ported makes or reads one.

pub mod task {
    #[derive(Debug)]
    pub struct JoinError;

    impl std::fmt::Display for JoinError {
        fn fmt(&self, f: &mut std::fmt::Formatter<'_>) -> std::fmt::Result {
            write!(f, "stand-in")
        }
    }

    impl std::error::Error for JoinError {}
}
