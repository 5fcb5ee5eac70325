//! A stand-in for the crate `tc_runtime`, which docs/src does not hold.
//! It has the one name that engine.rs and sse2.rs use: the token that shows
//! that the processor has SSE2. It assumes an x86 processor.

/// Instruction sets found at run time.
pub mod intrinsics {
    /// Instruction sets of x86 processors.
    pub mod x86 {
        /// Shows that the processor has SSE2. Only `detect` makes one.
        pub struct Sse2(());

        impl Sse2 {
            /// The token, where the processor has SSE2.
            pub fn detect() -> Option<Self> {
                is_x86_feature_detected!("sse2").then_some(Self(()))
            }
        }
    }
}
