//! Stand-in for faer: the view of a matrix that a Jacobian is written through, stored column after column.

/// Views of matrices.
pub mod mat {
    /// A view that may be written through.
    pub struct MatMut<'a, T> {
        rows: usize,
        columns: usize,
        entries: &'a mut [T],
    }

    impl<'a, T> MatMut<'a, T> {
        /// The view of entries that lie column after column.
        pub fn of(rows: usize, columns: usize, entries: &'a mut [T]) -> Self {
            assert_eq!(entries.len(), rows * columns);
            MatMut {
                rows,
                columns,
                entries,
            }
        }

        /// The number of rows.
        pub fn nrows(&self) -> usize {
            self.rows
        }

        /// The number of columns.
        pub fn ncols(&self) -> usize {
            self.columns
        }

        /// An entry; panics where there is none.
        pub fn get_mut(self, row: usize, column: usize) -> &'a mut T {
            assert!(row < self.rows && column < self.columns);
            &mut self.entries[column * self.rows + row]
        }
    }

    impl<T> crate::prelude::ReborrowMut for MatMut<'_, T> {
        type Target<'b>
            = MatMut<'b, T>
        where
            Self: 'b;

        fn rb_mut(&mut self) -> MatMut<'_, T> {
            MatMut {
                rows: self.rows,
                columns: self.columns,
                entries: self.entries,
            }
        }
    }
}

/// What faer's users bring in.
pub mod prelude {
    /// A shorter loan of a view.
    pub trait ReborrowMut {
        /// The view of the shorter loan.
        type Target<'b>
        where
            Self: 'b;

        /// The same view for a shorter time.
        fn rb_mut(&mut self) -> Self::Target<'_>;
    }
}
