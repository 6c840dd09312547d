//! The files of sapling-renderdag, unchanged, each in a module of its own name. What stands below an included file is ours: it reaches the file's private fields, to set and read a state by hand.
#![allow(dead_code)]

mod stand_ins;

pub use stand_ins::ascii;
pub use stand_ins::ascii_large;
pub use stand_ins::box_drawing;

/// Includes one of the crate's files, where the build script linked it.
macro_rules! crate_file {
    ($name:literal) => {
        include!(concat!(env!("OUT_DIR"), "/renderdag/", $name));
    };
}

/// The columns of a shaper.
pub mod column {
    crate_file!("column.rs");
}

/// Entries, cells and link marks.
pub mod render {
    use super::stand_ins::bitflags;

    crate_file!("render.rs");
}

/// The options and the state of text output.
pub mod output {
    crate_file!("output.rs");

    impl OutputRendererState {
        /// A state with this queued line and row height.
        pub(crate) fn by_hand(queued_pad_line: Option<String>, row_height: usize) -> Self {
            Self {
                queued_pad_line,
                row_height,
            }
        }

        /// The queued line and the row height.
        pub(crate) fn into_parts(self) -> (Option<String>, usize) {
            (self.queued_pad_line, self.row_height)
        }
    }
}

/// Message lines up to the row height.
pub mod pad {
    crate_file!("pad.rs");
}

/// The stages from a node to its text.
pub mod pipeline {
    /// Styles, row shapes and prefix lines.
    pub mod types {
        crate_file!("types.rs");
    }

    /// From a node and its parents to a row shape.
    pub mod graph_to_row_shape {
        crate_file!("graph_to_row_shape.rs");

        impl<N: Clone> GraphRowShaper<N> {
            /// A shaper with these columns, options and previous node column.
            pub(crate) fn by_hand(
                columns: Vec<Column<N>>,
                options: GraphRowShapeOptions,
                previous_node_column: Option<usize>,
            ) -> Self {
                Self {
                    columns,
                    options,
                    previous_node_column,
                }
            }

            /// The columns as they stand.
            pub(crate) fn columns(&self) -> &Vec<Column<N>> {
                &self.columns
            }

            /// The previous node's column.
            pub(crate) fn previous_node_column(&self) -> Option<usize> {
                self.previous_node_column
            }
        }

        impl<N: Clone> Clone for GraphRowShaper<N> {
            /// A copy to try a call on.
            fn clone(&self) -> Self {
                Self::by_hand(
                    self.columns.clone(),
                    self.options,
                    self.previous_node_column,
                )
            }
        }
    }

    /// From a row shape to prefix lines.
    pub mod row_shape_to_prefix_lines {
        crate_file!("row_shape_to_prefix_lines.rs");
    }

    /// From prefix lines to text.
    pub mod prefix_lines_to_text {
        crate_file!("prefix_lines_to_text.rs");

        impl PrefixLinesToText {
            /// A text stage with this state.
            pub(crate) fn by_hand(state: OutputRendererState) -> Self {
                Self {
                    state,
                    ..Self::default()
                }
            }

            /// The state as the last call left it.
            pub(crate) fn into_state(self) -> OutputRendererState {
                self.state
            }
        }

        /// A prefix line as the crate joins it.
        pub(crate) fn join(prefix_line: &PrefixLine, glyph: &str) -> String {
            render_prefix_line(prefix_line, glyph)
        }
    }

    /// All stages in one.
    pub mod graph_text_renderer {
        crate_file!("graph_text_renderer.rs");

        impl<N: Clone + Eq> GraphTextRenderer<N> {
            /// A renderer with these stages; the link placement is that of the shaper's options.
            pub(crate) fn by_hand(
                row_shaper: GraphRowShaper<N>,
                prefix_lines: Box<dyn PrefixLineRenderer<N> + Send + Sync + 'static>,
                text: PrefixLinesToText,
            ) -> Self {
                let renderer = Self {
                    row_shaper,
                    prefix_lines,
                    text,
                };
                renderer.configure(|_| {})
            }

            /// The shaper and the text stage as the last call left them.
            pub(crate) fn into_parts(self) -> (GraphRowShaper<N>, PrefixLinesToText) {
                (self.row_shaper, self.text)
            }
        }
    }
}
