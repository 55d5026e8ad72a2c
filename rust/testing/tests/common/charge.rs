//! Charges of a version against the reference's, and audited.
#![forbid(unsafe_code)]

use mavisglen::{Charge, Refusal, MOST_WORDS};
use mavisglen_testing::filed::{data_d, plans};
use mavisglen_testing::generate::transfer::{ADMITTED, TOO_HIGH};
use mavisglen_testing::generate::Inquiry;
use mavisglen_testing::question::Transfer;
use mavisglen_testing::reference::audit::Bill;
use mavisglen_testing::reference::Reference;
use mavisglen_testing::workload::Workload;

use super::{hexadecimal, Compared};

/// How often it is charged, refused for each place of 17, and refused for the plan or the data set.
#[derive(Debug, Default)]
pub struct Charges {
    charged: usize,
    places_of_17: [usize; 3],
    refused_before: usize,
}

impl Charges {
    fn add(&mut self, charge: Charge) {
        match charge {
            Charge::Charged { .. } => self.charged += 1,
            Charge::Refused(Refusal::InvalidCharge(place)) => self.places_of_17[place as usize - 1] += 1,
            Charge::Refused(_) => self.refused_before += 1,
        }
    }

    pub fn all(&self) -> usize {
        self.charged + self.places_of_17.iter().sum::<usize>() + self.refused_before
    }

    pub fn has_every_kind(&self) -> bool {
        let [first, second, third] = self.places_of_17;
        [self.charged, first, second, third, self.refused_before].iter().all(|&count| count > 0)
    }
}

impl Compared {
    /// The charge for each transfer is the reference's, and what is due stands the audit by the version's own words.
    pub(super) fn charges_alike(
        &self,
        name: impl Fn() -> String,
        inquiry: &Inquiry,
        transfers: &[Transfer],
        charges: &mut Charges,
    ) {
        let Inquiry { plan, data, .. } = inquiry;
        let mut words = [0; MOST_WORDS];
        (self.0.evaluate)(plan, data, &mut words);
        for &transfer in transfers {
            let charge = (self.0.charge)(plan, data, transfer);
            let expected = inquiry.charged_by(Reference::default(), transfer);
            let describe = || {
                format!("{}: {transfer:?}\nplan {}\ndata {}", name(), hexadecimal(plan), hexadecimal(data))
            };
            assert_eq!(expected, charge, "reference and version differ, {}", describe());
            if let (Ok(evaluated), Charge::Charged { count, cents, remainder }) = (&inquiry.evaluated, charge)
            {
                let audited = evaluated.audit(&words, transfer, Bill { count, cents, remainder });
                assert_eq!(audited, Ok(()), "{}", describe());
            }
            charges.add(charge);
        }
    }

    /// Every two nodes of the filed examples, those that are just not there and the greatest numbers, at every price
    /// that matters.
    pub fn charges_the_filed_examples_alike(&self) {
        let mut charges = Charges::default();
        for plan in plans() {
            let inquiry = Inquiry::of(plan.encode(), data_d().encode());
            let nodes: Vec<usize> = (0..=plan.nodes.len()).chain([usize::MAX]).collect();
            for (&accessed, &owned) in
                nodes.iter().flat_map(|node| nodes.iter().map(move |other| (node, other)))
            {
                let transfer = |&price: &u64| Transfer { accessed, owned, price };
                let transfers: Vec<Transfer> = ADMITTED.iter().chain(&TOO_HIGH).map(transfer).collect();
                self.charges_alike(|| "filed example".into(), &inquiry, &transfers, &mut charges);
            }
        }
        println!("{charges:?}");
    }

    /// Each node of a plan against the one before and against the last, at prices in turn.
    pub(super) fn charges_workload_alike(&self, workload: &Workload) {
        let inquiry = Inquiry::of(workload.plan.clone(), workload.data.clone());
        let nodes = inquiry.evaluated.as_ref().expect("a workload is accepted").plan.nodes.len();
        let pairs = (1..nodes).flat_map(|node| [(node, node - 1), (nodes - 1, node), (node, nodes - 1)]);
        let transfers: Vec<Transfer> = pairs
            .zip(ADMITTED.iter().rev().cycle())
            .map(|((accessed, owned), &price)| Transfer { accessed, owned, price })
            .collect();
        self.charges_alike(|| workload.name.clone(), &inquiry, &transfers, &mut Charges::default());
    }

    /// Nodes that most plans have, one that not every plan has, and one that none has at a price too high.
    pub(super) fn charges_altered_alike(&self, inquiry: &Inquiry) {
        let transfers = [(1, 1, 1001), (1, 2, 999), (2, 0, 1), (0, 3, 1000), (48, 0, u64::MAX)]
            .map(|(accessed, owned, price)| Transfer { accessed, owned, price });
        self.charges_alike(|| "altered bytes".into(), inquiry, &transfers, &mut Charges::default());
    }
}
