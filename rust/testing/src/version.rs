//! The versions of the product, which are compared and measured.
#![forbid(unsafe_code)]

use mavisglen::{Answer, Charge, Written};

use crate::question::{Question, Transfer};
use crate::{optimised, reference};

type Check = fn(&[u8]) -> Answer;
type Evaluate = fn(&[u8], &[u8], &mut [u64]) -> Answer;
type Explain = fn(&[u8], &[u8], Question, &mut [u16], &mut [u16]) -> Written;
type ChargeFor = fn(&[u8], &[u8], Transfer) -> Charge;

/// The four functions of one version.
#[derive(Clone, Copy, Debug)]
pub struct Version {
    pub check: Check,
    pub evaluate: Evaluate,
    pub explain: Explain,
    pub charge: ChargeFor,
}

impl Version {
    pub const REFERENCE: Version = Version {
        check: reference::check,
        evaluate: reference::evaluate,
        explain: reference::explain,
        charge: reference::charge,
    };

    pub const OPTIMISED: Version = Version {
        check: optimised::check,
        evaluate: optimised::evaluate,
        explain: optimised::explain,
        charge: optimised::charge,
    };

    #[cfg(feature = "library")]
    pub const LIBRARY: Version = Version {
        check: mavisglen::check,
        evaluate: mavisglen::evaluate,
        explain: |plan, data, Question { node, piece, element }, nodes, elements| {
            mavisglen::explain(plan, data, node, piece, element, nodes, elements)
        },
        charge: |plan, data, Transfer { accessed, owned, price }| {
            mavisglen::charge(plan, data, accessed, owned, price)
        },
    };

    pub const ALL: &[Version] = &[
        Version::REFERENCE,
        Version::OPTIMISED,
        #[cfg(feature = "library")]
        Version::LIBRARY,
    ];
}
