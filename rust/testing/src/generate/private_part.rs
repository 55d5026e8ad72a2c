//! Private parts of images, which lemma 21 is about, and what is easily taken for one.
#![forbid(unsafe_code)]

use super::builder::{Builder, Form};
use crate::encode::node;

/// The nodes of lemma 21's F minus the image under f of (G minus P).
#[derive(Clone, Copy, Debug)]
pub struct PrivatePart {
    /// F, the image of P.
    pub image: u8,
    /// G, all that leads into F.
    pub sources: u8,
    /// G minus P.
    pub others: u8,
    /// The image of G minus P.
    pub shared: u8,
    pub private: u8,
}

/// What a step by lemma 21 may be about, or cite, in place of a private part and DISJ(P).
#[derive(Clone, Copy, Debug, PartialEq, Eq, PartialOrd, Ord)]
pub enum Mistake {
    /// F itself.
    WholeImage,
    /// The image of (G minus P), minus F.
    TurnedRound,
    /// F minus the image of (P minus G).
    OthersTurnedRound,
    /// F minus the image of G.
    AllSources,
    /// Another node minus the image of (G minus P).
    OfAnother,
    /// The private part, by DISJ(F).
    DisjointImage,
    /// The private part, by DISJ(G minus P).
    DisjointOthers,
    /// The private part of any node, by DISJ of another.
    AnyNode,
}

impl Mistake {
    pub const ALL: [Mistake; 8] = [
        Mistake::WholeImage,
        Mistake::TurnedRound,
        Mistake::OthersTurnedRound,
        Mistake::AllSources,
        Mistake::OfAnother,
        Mistake::DisjointImage,
        Mistake::DisjointOthers,
        Mistake::AnyNode,
    ];
}

impl Builder<'_> {
    /// The private part of the image of a node.
    pub fn private_part(&mut self, of: u8, map: u8) -> Option<PrivatePart> {
        let image = self.node(node::IMAGE, of, map)?;
        let sources = self.node(node::PREIMAGE, image, map)?;
        let others = self.node(node::DIFFERENCE, sources, of)?;
        let shared = self.node(node::IMAGE, others, map)?;
        let private = self.node(node::DIFFERENCE, image, shared)?;
        Some(PrivatePart { image, sources, others, shared, private })
    }

    /// A step that is by lemma 21 but for a mistake.
    pub fn mistaken_step(&mut self, mistake: Mistake) -> Option<[u8; 5]> {
        let map = self.random.below(self.plan.maps.len().max(1)) as u8;
        let &[source, _, _] = self.plan.maps.get(usize::from(map))?;
        let (of, p) = match mistake {
            // The image of a disjoint node's preimage is disjoint too.
            Mistake::DisjointImage | Mistake::DisjointOthers => self.disjoint_preimage(map, 1)?,
            _ => self.disjoint(source, 2)?,
        };
        let part = self.private_part(of, map)?;
        let x = self.mistaken_node(mistake, of, map, part)?;
        let p = match mistake {
            Mistake::DisjointImage => self.disjoint_image(of, part.image)?,
            Mistake::DisjointOthers => {
                let image = self.disjoint_image(of, part.image)?;
                let sources = self.step(18, part.sources, 0, image, 0)?;
                self.step(17, part.others, 0, sources, 0)?
            }
            _ => p,
        };
        Some([21, x, 0, p, 0])
    }

    /// What stands in place of the private part of P's image.
    fn mistaken_node(&mut self, mistake: Mistake, of: u8, map: u8, part: PrivatePart) -> Option<u8> {
        match mistake {
            Mistake::WholeImage => Some(part.image),
            Mistake::TurnedRound => self.node(node::DIFFERENCE, part.shared, part.image),
            Mistake::OthersTurnedRound => {
                let others = self.node(node::DIFFERENCE, of, part.sources)?;
                self.without_image(part.image, others, map)
            }
            Mistake::AllSources => self.without_image(part.image, part.sources, map),
            Mistake::OfAnother => {
                let region = self.region(part.image);
                let another = self.some_node(region, 1).filter(|&another| another != part.image)?;
                self.node(node::DIFFERENCE, another, part.shared)
            }
            Mistake::DisjointImage | Mistake::DisjointOthers => Some(part.private),
            Mistake::AnyNode => {
                let any = self.some_node(self.region(of), 2).filter(|&any| any != of)?;
                Some(self.private_part(any, map)?.private)
            }
        }
    }

    /// A node minus the image of another.
    fn without_image(&mut self, node: u8, of: u8, map: u8) -> Option<u8> {
        let image = self.node(node::IMAGE, of, map)?;
        self.node(node::DIFFERENCE, node, image)
    }

    /// Proves the image of a disjoint node's preimage disjoint, by 15 over 14.
    fn disjoint_image(&mut self, preimage: u8, image: u8) -> Option<u8> {
        let [_, y, ..] = self.record(preimage);
        let disjoint = self.find_step(Form::Disjoint, y)?;
        let (_, in_itself) = self.contain_by(5, preimage, 0)?;
        let in_y = self.step(14, image, y, in_itself, 0)?;
        self.step(15, image, y, disjoint, in_y)
    }
}
