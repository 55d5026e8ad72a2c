//! Transfer charge: what the accessed pieces have and the same owned pieces lack, counted and priced.
#![forbid(unsafe_code)]

use mavisglen::{Charge, Refusal};

use super::data::Set;
use super::evaluation::Evaluated;
use super::flaw::Flaw;
use super::plan::Plan;
use super::{require, Reference};
use crate::encode::limit;
use crate::question::Transfer;

impl Reference {
    pub fn charge(&self, plan: &[u8], data: &[u8], transfer: Transfer) -> Charge {
        match self.evaluated_to_charge(plan, data, transfer) {
            Ok(evaluated) => self.charge_over(&evaluated, transfer),
            Err(refusal) => Charge::Refused(refusal),
        }
    }

    /// Refusals 1 to 14 come first; the transfer matters to flaws only.
    fn evaluated_to_charge(
        &self,
        plan: &[u8],
        data: &[u8],
        transfer: Transfer,
    ) -> Result<Evaluated, Refusal> {
        if self.has(Flaw::PriceJudgedBeforePlan) {
            require(self.admits_price(transfer.price), Refusal::InvalidCharge(3))?;
        }
        let plan = self.checked_plan(plan)?;
        if self.has(Flaw::TransferJudgedBeforeData) {
            self.judge_transfer(&plan, transfer)?;
        }
        self.evaluated(plan, data)
    }

    /// Charges for what is evaluated already.
    pub fn charge_over(&self, evaluated: &Evaluated, transfer: Transfer) -> Charge {
        let transfer = self.cut_transfer(transfer);
        match self.judge_transfer(&evaluated.plan, transfer) {
            Ok(()) => self.bill(&self.fetched(evaluated, transfer), transfer.price),
            Err(refusal) => Charge::Refused(refusal),
        }
    }

    /// The numbers as they are given.
    fn cut_transfer(&self, transfer: Transfer) -> Transfer {
        let Transfer { accessed, owned, price } = transfer;
        match self.flaw {
            Some(Flaw::NodesCutTo { bits }) => {
                let cut = |node: usize| node & ((1 << bits) - 1);
                Transfer { accessed: cut(accessed), owned: cut(owned), price }
            }
            Some(Flaw::PriceCutTo { bits }) => Transfer { price: price & ((1 << bits) - 1), ..transfer },
            _ => transfer,
        }
    }

    /// Unpriced: a node does not exist (1), the two differ in region (2), the price is above 1,000,000 (3); the lowest.
    fn judge_transfer(
        &self,
        plan: &Plan,
        Transfer { accessed, owned, price }: Transfer,
    ) -> Result<(), Refusal> {
        let exists = |node: usize| node < plan.nodes.len();
        let region = |node: usize| plan.nodes.get(node).map(|node| node.region);
        let both_exist = match self.flaw {
            Some(Flaw::OnlyAccessedNodeJudged) => exists(accessed),
            Some(Flaw::OnlyOwnedNodeJudged) => exists(owned),
            _ => exists(accessed) && exists(owned),
        };
        let of_one_region = match self.flaw {
            Some(Flaw::ChargeRegionsUnjudged) => true,
            Some(Flaw::SameNodeRefused) => region(accessed) == region(owned) && accessed != owned,
            _ => region(accessed) == region(owned),
        };
        let mut judged = [(1, both_exist), (2, of_one_region), (3, self.admits_price(price))];
        match self.flaw {
            Some(Flaw::ChargePlacesExchanged) => (judged[1].0, judged[2].0) = (3, 2),
            Some(Flaw::PriceJudgedBeforeRegions) => judged.swap(1, 2),
            Some(Flaw::PriceJudgedBeforeNodes) => judged.rotate_right(1),
            Some(Flaw::RegionsJudgedBeforeNodes) => judged.swap(0, 1),
            _ => {}
        }
        judged.into_iter().try_for_each(|(place, holds)| require(holds, Refusal::InvalidCharge(place)))
    }

    /// From 0 to 1,000,000.
    fn admits_price(&self, price: u64) -> bool {
        match self.flaw {
            Some(Flaw::NoPriceRefused) => (1..=limit::PRICE).contains(&price),
            Some(Flaw::HighestPriceRefused) => price < limit::PRICE,
            Some(Flaw::PriceOneHigherAdmitted) => price <= limit::PRICE + 1,
            Some(Flaw::PriceUnlimited) => true,
            Some(Flaw::PriceSigned) => (price as i64) <= limit::PRICE as i64,
            _ => price <= limit::PRICE,
        }
    }

    /// Of each accessed piece the elements that the same owned piece lacks.
    fn fetched(&self, evaluated: &Evaluated, transfer: Transfer) -> Vec<Set> {
        let [accessed, owned] = [transfer.accessed, transfer.owned].map(|node| evaluated.pieces(node));
        if self.has(Flaw::PiecesCountedAsOne) {
            let [accessed, owned] =
                [accessed, owned].map(|pieces| pieces.iter().flatten().copied().collect());
            return vec![self.lacking(&accessed, &owned)];
        }
        let same = |piece: usize| if self.has(Flaw::FirstOwnedPieceCompared) { 0 } else { piece };
        (0..accessed.len()).map(|piece| self.lacking(&accessed[piece], &owned[same(piece)])).collect()
    }

    /// The elements of the one that the other lacks.
    fn lacking(&self, accessed: &Set, owned: &Set) -> Set {
        match self.flaw {
            Some(Flaw::OwnedWithoutAccessedCounted) => owned - accessed,
            Some(Flaw::SharedCounted) => accessed & owned,
            Some(Flaw::EitherWithoutOtherCounted) => accessed ^ owned,
            Some(Flaw::AllAccessedCounted) => accessed.clone(),
            _ => accessed - owned,
        }
    }

    /// What is fetched, added over the pieces.
    fn count(&self, fetched: &[Set]) -> usize {
        let added = |pieces: &[Set]| pieces.iter().map(Set::len).sum();
        match self.flaw {
            Some(Flaw::OnlyFirstPieceCounted) => added(&fetched[..1]),
            Some(Flaw::LastPieceNotCounted) => added(&fetched[..fetched.len() - 1]),
            Some(Flaw::ElementsCountedOnce) => fetched.iter().flatten().copied().collect::<Set>().len(),
            Some(Flaw::CountCutTo { bits }) => added(fetched) & ((1 << bits) - 1),
            _ => added(fetched),
        }
    }

    /// Count times price, divided by 1,000: whole cents, and the exact remainder.
    fn bill(&self, fetched: &[Set], price: u64) -> Charge {
        let count = self.count(fetched) as u128;
        let product = match self.flaw {
            Some(Flaw::ProductCutTo { bits }) => (count * u128::from(price)) & ((1 << bits) - 1),
            Some(Flaw::WholeThousandsCharged) => count / 1000 * 1000 * u128::from(price),
            _ => count * u128::from(price),
        };
        let cents_of = |count: usize| count as u128 * u128::from(price) / 1000;
        let cents = match self.flaw {
            Some(Flaw::CentsRoundedUp) => product.div_ceil(1000),
            Some(Flaw::CentsOfEachPiece) => fetched.iter().map(|piece| cents_of(piece.len())).sum(),
            _ => product / 1000,
        };
        let remainder = match self.flaw {
            Some(Flaw::RemainderOfTheCount) => count % 1000,
            Some(Flaw::RemainderDropped) => 0,
            _ => product % 1000,
        };
        Charge::Charged { count: count as u16, cents: cents as u32, remainder: remainder as u16 }
    }
}
