//! Kinds of cases by their texts, and how often each came up.

/// `Kind` has these names and `KINDS` their texts; `Seen` counts them.
macro_rules! kinds {
    ($($name:ident : $text:expr,)*) => {
        #[derive(Clone, Copy)]
        #[repr(usize)]
        #[allow(dead_code)] // some are hit by their texts alone
        pub enum Kind { $($name,)* }
        pub const KINDS: &[&str] = &[$($text,)*];

        pub struct Seen {
            counts: Vec<u64>,
        }

        #[allow(dead_code)]
        impl Seen {
            pub fn new() -> Seen {
                Seen { counts: vec![0; KINDS.len()] }
            }

            pub fn hit(&mut self, kind: Kind) {
                self.counts[kind as usize] += 1;
            }

            pub fn hit_if(&mut self, yes: bool, kind: Kind) {
                self.counts[kind as usize] += u64::from(yes);
            }

            /// The kind with this text.
            pub fn hit_named(&mut self, text: &str) {
                let kind = KINDS.iter().position(|name| *name == text).expect("a kind");
                self.counts[kind] += 1;
            }

            /// Prints the counts and answers how many kinds never came up.
            pub fn print(&self) -> usize {
                let mut missing = 0;
                for (name, count) in KINDS.iter().zip(&self.counts) {
                    println!("{count:>12}  {name}");
                    missing += usize::from(*count == 0);
                }
                missing
            }
        }
    };
}
