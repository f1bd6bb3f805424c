//! All that is measured, each once, whichever tables tell of it.

use crate::inputs::{Inputs, Variant, EVERY, NONE};
use crate::latency::{by_montgomery, by_remainder, Chains};
use crate::orders;
use crate::services::{Service, SERVICES};
use crate::timing::Pair;

pub struct Board<'a> {
    entries: Vec<Entry<'a>>,
    chains: Vec<Limits>,
}

struct Entry<'a> {
    service: &'static str,
    variant: &'static str,
    p: u32,
    r: u32,
    pair: Pair<'a>,
}

/// The chains of products at one p.
pub struct Limits {
    pub montgomery: Chains,
    pub remainder: Chains,
}

/// Each service with each of its variants, in the tables' order.
pub fn rows() -> impl Iterator<Item = (&'static Service, &'static Variant)> {
    let variants = EVERY.iter().chain(NONE);
    variants.flat_map(|variant| {
        let those = SERVICES.iter().filter(|s| s.variants.contains(variant));
        those.map(move |service| (service, variant))
    })
}

impl<'a> Board<'a> {
    /// The worked example's p and the largest have every service, others those that grow, and those with other
    /// orders the services that test one. No two have the same p and r.
    pub fn new(
        small: &'a Inputs,
        growing: &'a [Inputs; 4],
        with_orders: &'a [Inputs; 4],
    ) -> Board<'a> {
        let [.., large] = growing;
        let mut entries = Vec::new();
        for (service, variant) in rows() {
            for inputs in std::iter::once(small).chain(growing) {
                if service.grows || inputs.p == small.p || inputs.p == large.p {
                    entries.push(Entry::new(service, variant, inputs));
                }
            }
            if orders::is_told(service, variant) {
                let others = with_orders.iter();
                entries.extend(others.map(|inputs| Entry::new(service, variant, inputs)));
            }
        }
        let limits = |inputs: &Inputs| Limits {
            montgomery: by_montgomery(inputs),
            remainder: by_remainder(inputs),
        };
        Board {
            entries,
            chains: growing.iter().map(limits).collect(),
        }
    }

    pub fn round(&mut self) {
        for entry in &mut self.entries {
            entry.pair.round();
        }
        for limits in &mut self.chains {
            limits.montgomery.round();
            limits.remainder.round();
        }
    }

    pub fn pair(&self, service: &str, variant: &Variant, at: &Inputs) -> &Pair<'a> {
        let is_it = |e: &&Entry| {
            e.service == service && e.variant == variant.name && (e.p, e.r) == (at.p, at.r)
        };
        let found = self.entries.iter().find(is_it);
        &found.expect("the tables tell of what is measured").pair
    }

    /// Of each p that grows, in their order.
    pub fn limits(&self) -> &[Limits] {
        &self.chains
    }
}

impl<'a> Entry<'a> {
    fn new(service: &Service, variant: &'static Variant, inputs: &'a Inputs) -> Entry<'a> {
        Entry {
            service: service.name,
            variant: variant.name,
            p: inputs.p,
            r: inputs.r,
            pair: (service.pair)(inputs, variant.number),
        }
    }
}
