//! The original's text, and what stands in for the rest of its crate: error plumbing, the variables that a factor is
//! registered with, the distance field that plane.rs names.

#![allow(dead_code, unused_imports, missing_docs)]

/// Stands in for the solver's core: as much of a variable as the validation looks at.
pub mod core {
    pub mod variable {
        /// A variable that a factor is registered with.
        pub trait ManifoldVariable {
            fn as_param_slice(&self) -> &[f64];
            fn dof(&self) -> usize;
            fn manifold_type_name(&self) -> &'static str;
        }
    }
}

/// Stands in for the error plumbing: nothing is logged.
pub mod error {
    pub trait ErrorLogging: Sized {
        fn log(self) -> Self {
            self
        }
    }

    impl ErrorLogging for super::factors::FactorError {}
}

pub mod factors {
    use crate::core::variable::ManifoldVariable;

    /// The kinds of errors that the files build, field for field.
    #[derive(Debug, Clone)]
    pub enum FactorError {
        VariableCount {
            factor: &'static str,
            expected: usize,
            actual: usize,
        },
        VariableSize {
            factor: &'static str,
            block: usize,
            expected: usize,
            actual: usize,
        },
        VariableDof {
            factor: &'static str,
            block: usize,
            expected: usize,
            actual: usize,
        },
        VariableManifold {
            factor: &'static str,
            block: usize,
            expected: &'static str,
            actual: &'static str,
        },
        DimensionMismatch {
            factor: &'static str,
            what: &'static str,
            expected: usize,
            actual: usize,
        },
        TooFew {
            factor: &'static str,
            what: &'static str,
            min: usize,
            actual: usize,
        },
        NonFinite {
            factor: &'static str,
            what: &'static str,
        },
        InvalidValue {
            factor: &'static str,
            what: &'static str,
            requirement: &'static str,
            value: f64,
        },
        Degenerate {
            factor: &'static str,
            what: &'static str,
        },
        UnsupportedGroup {
            factor: &'static str,
            group: &'static str,
            dof: usize,
            max: usize,
        },
    }

    pub type FactorResult<T> = Result<T, FactorError>;

    // The trait `Factor` and the type `NormalBlocks`.
    include!(concat!(env!("OUT_DIR"), "/cuts.rs"));

    /// Beside the text of `NormalBlocks`: where each block goes, and what transforms it.
    pub mod beside {
        use nalgebra::DMatrix;

        /// The offset of each block, none where it is dropped.
        pub fn offsets(blocks: &super::NormalBlocks<'_>) -> Vec<Option<usize>> {
            (0..blocks.blocks())
                .map(|block| blocks.offset(block))
                .collect()
        }

        /// The transform of each block, none where it has none; an empty list where no block has one.
        pub fn transforms(blocks: &super::NormalBlocks<'_>) -> Vec<Option<DMatrix<f64>>> {
            blocks.transforms.clone()
        }
    }

    pub mod common {
        include!(concat!(env!("OUT_DIR"), "/common.list.rs"));

        pub mod math {
            pub use apex_manifolds::skew;
        }
    }

    pub mod lidar {
        include!(concat!(env!("OUT_DIR"), "/lidar.list.rs"));

        /// Stands in for the distance field, which only plane.rs names, for a factor that is not compared.
        pub mod distance_field {
            use nalgebra::Vector3;
            use std::marker::PhantomData;

            pub trait DistanceField {
                fn query(&self, point: &Vector3<f64>) -> Option<(f64, Vector3<f64>)>;
            }

            pub struct IcpFactor<G, F> {
                pub field: F,
                pub point: Vector3<f64>,
                pub sigma: f64,
                group: PhantomData<fn() -> G>,
            }

            impl<G, F: DistanceField> IcpFactor<G, F> {
                pub fn new(field: F, point: Vector3<f64>, sigma: f64) -> Self {
                    IcpFactor {
                        field,
                        point,
                        sigma,
                        group: PhantomData,
                    }
                }
            }
        }
    }
}
