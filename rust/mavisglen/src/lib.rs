//! Partition plans, checked, evaluated, explained and charged for by a verified library.
//!
//! A plan names regions, pointer maps, loops, partition expressions and the lemma steps that are said to show
//! that the expressions serve the loops. `check` judges a plan without data; `evaluate` judges it with a data
//! set and fills words with the subregions; `explain` writes why an element is in one of them; `charge` counts
//! and prices what a task must fetch. Every input, however damaged, gets an answer: an acceptance ([`Answer`]),
//! the length of what is written ([`Written`]) or a charge ([`Charge`]), or one numbered [`Refusal`] with its
//! place. The bytes of plans and data sets are described in the repository's `docs/FORMAT.md`.
//!
//! The library is proved to answer as that page says; this crate hands slices to its four functions and reads
//! their answers. The build links `libmavisglen.a`, made by `.ci/library`, from the repository's
//! `target/staticlib` or from the folder named in `MAVISGLEN_LIB`. Without the feature `library`, which is on
//! by default, nothing is linked and the four functions are left out.
//!
//! # Example
//!
//! ```
//! # #[cfg(feature = "library")] {
//! use mavisglen::{charge, check, evaluate, explain, Answer, Charge, Refusal, Written};
//! use mavisglen::{LONGEST_CHAIN, MOST_WORDS};
//!
//! // A plan that ends after its first byte. Printed, the refusal says what is wrong, and where.
//! let Answer::Refused(refusal) = check(&[1]) else { panic!("accepted") };
//! assert_eq!(refusal, Refusal::Truncated(1));
//! assert_eq!(refusal.to_string(), "refused 1: truncated plan, it ends before section 1 (regions) does");
//!
//! // A loop over region 0 that reads region 1 through a map.
//! let plan = [
//!     1, // edition
//!     0, 2, 2, 1, // two regions, of two fields and of one
//!     0, 3, 0, 1, 1, // a map from region 0 to region 1, total
//!     0, 0, // no supplied partition
//!     0, 16, // four statements:
//!     0, 0, 0, 0, // FOR each element of region 0
//!     1, 0, 0, 0, // LOAD its pointer
//!     4, 1, 0, 0, // READ where it points
//!     6, 0, 1, 0, // REDUCE into the element, by adding
//!     0, 12, // three nodes:
//!     1, 0, 0, 0, // node 0: region 0 in equal pieces
//!     5, 0, 0, 0, // node 1: the image of node 0 under the map
//!     1, 1, 0, 0, // node 2: region 1 in equal pieces
//!     0, 4, 0, 0, 1, 0, // the nodes of FOR, LOAD, READ and REDUCE
//!     0, 15, // three steps:
//!     2, 0, 0, 0, 0, // equal pieces are complete
//!     5, 0, 0, 0, 0, // node 0 is contained in itself
//!     5, 1, 1, 0, 0, // and so is node 1
//! ];
//! assert_eq!(check(&plan), Answer::Accepted { symbols: 4, nodes: 3, steps: 3 });
//!
//! // Two pieces; five elements in region 0 that point to three in region 1.
//! let data = [
//!     1, // edition
//!     0, 1, 2, // pieces
//!     0, 4, 0, 5, 0, 3, // sizes of the regions
//!     0, 10, 0, 0, 0, 0, 0, 2, 0, 1, 0, 2, // where each element of region 0 points
//!     0, 0, // no supplied partition
//! ];
//! let mut words = [0; MOST_WORDS];
//! match evaluate(&plan, &data, &mut words) {
//!     Answer::Accepted { .. } => {}
//!     Answer::Refused(refusal) => panic!("{refusal}"),
//! }
//! let (pieces, node) = (2, 1);
//! assert_eq!(words[node * pieces * 8], 0b101); // piece 0 reads elements 0 and 2 of region 1
//! assert_eq!(words[(node * pieces + 1) * 8], 0b110); // piece 1 reads elements 1 and 2
//!
//! // Why does piece 1 read element 2? Because element 4, in its part of node 0, points there.
//! let (mut nodes, mut elements) = ([0; LONGEST_CHAIN], [0; LONGEST_CHAIN]);
//! match explain(&plan, &data, 1, 1, 2, &mut nodes, &mut elements) {
//!     Written::Length(length) => {
//!         assert_eq!(nodes[..length], [1, 0]);
//!         assert_eq!(elements[..length], [2, 4]);
//!     }
//!     Written::Refused(refusal) => panic!("{refusal}"),
//! }
//! // Element 0 it does not read.
//! let answer = explain(&plan, &data, 1, 1, 0, &mut nodes, &mut elements);
//! assert_eq!(answer, Written::Refused(Refusal::NotFound(4)));
//!
//! // Where the pieces own what node 2 gives them, {0, 1} and {2}, piece 0 must fetch element 2 and piece 1 element 1.
//! // At 1,250 cents per thousand elements that is two and a half cents.
//! match charge(&plan, &data, 1, 2, 1250) {
//!     Charge::Charged { count, cents, remainder } => assert_eq!((count, cents, remainder), (2, 2, 500)),
//!     Charge::Refused(refusal) => panic!("{refusal}"),
//! }
//! // Node 0 is of another region.
//! assert_eq!(charge(&plan, &data, 1, 0, 1250), Charge::Refused(Refusal::InvalidCharge(2)));
//! # }
//! ```
#![deny(missing_docs)]
#![deny(unsafe_code)]

mod answer;
#[cfg(feature = "library")]
mod ffi;

pub use answer::{Answer, Charge, Refusal, Written};
#[cfg(feature = "library")]
pub use ffi::{charge, check, evaluate, explain};

/// As many words as the largest evaluation fills: 48 nodes × 16 pieces × 8 words.
pub const MOST_WORDS: usize = 6144;

/// As many pairs as the longest chain has: one for each of 48 nodes.
pub const LONGEST_CHAIN: usize = 48;

/// The highest price that is charged, in cents per thousand elements.
pub const HIGHEST_PRICE: u64 = 1_000_000;
