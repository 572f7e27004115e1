//! Which conjunct of a plan came from which of the plan before it.

use crate::derivations::{clause, inferred, is, through};
use crate::fields::{fields, Name};
use crate::outline::{inputs, split, Conjunct, Outline, Place};
use push_down_filter::image::Tree;
use push_down_filter::kinds::{boolean, EQ, JOIN};
use std::collections::{BTreeMap, BTreeSet};

/// How a conjunct came to its place.
#[derive(Clone, Copy, Debug, PartialEq, Eq, PartialOrd, Ord)]
pub enum How {
    /// It stood there before.
    Stays,
    /// The same conjunct stood elsewhere.
    Moved,
    /// It stood elsewhere, over other names.
    Changed,
    /// By the keys of a join it follows from another.
    Inferred,
    /// It is what an OR asks of one side of a join.
    Clause,
    /// FALSE, since others cannot hold together.
    Contradiction,
    /// Nothing before it accounts for it.
    New,
}

/// How a conjunct came to its place, and from which conjuncts of the plan before.
#[derive(Clone, Debug, PartialEq, Eq)]
pub struct Link {
    pub how: How,
    pub from: Vec<usize>,
}

/// A link for each conjunct of the plan after, in their order.
pub type Links = Vec<Link>;

/// The links between the plans before and after one rewrite, which moves a conjunct past at most one plan that is no Filter.
pub fn links(before: &Outline, after: &Outline) -> Links {
    let links = vec![None; after.conjuncts.len()];
    let mut matching = Matching { before, after, links, taken: BTreeSet::new(), stays: BTreeSet::new() };
    matching.link_stays();
    let offers = matching.offers();
    for how in [How::Moved, How::Changed, How::Inferred, How::Clause] {
        matching.link_offers(&offers, how, false);
    }
    // repeats that stay: one conjunct stands for several
    for how in [How::Moved, How::Changed] {
        matching.link_offers(&offers, how, true);
    }
    matching.link_rest();
    matching.links.into_iter().flatten().collect()
}

/// What a conjunct may have become at an anchor.
struct Offer {
    anchor: usize,
    expr: Tree,
    how: How,
    from: usize,
}

struct Matching<'a> {
    before: &'a Outline<'a>,
    after: &'a Outline<'a>,
    links: Vec<Option<Link>>,
    /// The conjuncts before that stand for one after, with the anchor of that one; and those that stay.
    taken: BTreeSet<(usize, usize)>,
    stays: BTreeSet<usize>,
}

impl Matching<'_> {
    fn unlinked(&self) -> Vec<usize> {
        (0..self.links.len()).filter(|&to| self.links[to].is_none()).collect()
    }

    fn link(&mut self, to: usize, how: How, from: usize) {
        self.taken.insert((from, self.after.conjuncts[to].place.anchor));
        self.links[to] = Some(Link { how, from: vec![from] });
    }

    /// Links what stands where it stood.
    fn link_stays(&mut self) {
        let mut stood: BTreeMap<Place, Vec<usize>> = BTreeMap::new();
        for (from, conjunct) in self.before.conjuncts.iter().enumerate() {
            stood.entry(conjunct.place).or_default().push(from);
        }
        for to in self.unlinked() {
            let Conjunct { place, expr, .. } = self.after.conjuncts[to];
            let Some(here) = stood.get_mut(&place) else { continue };
            if let Some(at) = here.iter().position(|&from| self.before.conjuncts[from].expr == expr) {
                let from = here.remove(at);
                self.stays.insert(from);
                self.link(to, How::Stays, from);
            }
        }
    }

    /// What the conjuncts near those that are not linked yet may have become.
    fn offers(&self) -> Vec<Offer> {
        let mut near = BTreeSet::new();
        for to in self.unlinked() {
            let anchor = self.after.conjuncts[to].place.anchor;
            near.insert(anchor);
            near.extend(self.before.anchors.get(anchor).and_then(|anchor| anchor.above).map(|(above, _)| above));
        }
        let is_near = |from: &usize| near.contains(&self.before.conjuncts[*from].place.anchor);
        (0..self.before.conjuncts.len()).filter(is_near).flat_map(|from| self.offered(from)).collect()
    }

    fn offered(&self, from: usize) -> Vec<Offer> {
        let Conjunct { place: Place { anchor, .. }, expr, .. } = self.before.conjuncts[from];
        let mut offers = vec![Offer { anchor, expr: expr.clone(), how: How::Moved, from }];
        for (below, input) in self.before.inputs_of(anchor) {
            let plan = self.before.anchors[anchor].tree;
            let offer = |expr: Tree, how: How| Offer { anchor: below, expr, how, from };
            for part in split(&through(plan, input, expr)) {
                offers.push(offer(part.clone(), if part == expr { How::Moved } else { How::Changed }));
            }
            if plan.label.kind == JOIN {
                let side: Vec<Name> =
                    inputs(plan).nth(input).map(fields).unwrap_or_default().iter().map(|field| field.name).collect();
                let other = inferred(plan, expr);
                offers.extend((other != *expr).then(|| offer(other, How::Inferred)));
                offers.extend(clause(expr, &side).map(|clause| offer(clause, How::Clause)));
            }
        }
        offers
    }

    /// Links what was offered so. What moves is linked to one conjunct at each anchor, if it must not repeat.
    fn link_offers(&mut self, offers: &[Offer], how: How, repeats: bool) {
        let moves = matches!(how, How::Moved | How::Changed);
        for to in self.unlinked() {
            let Conjunct { place: Place { anchor, .. }, expr, .. } = self.after.conjuncts[to];
            let fits = |offer: &&Offer| {
                let is_taken = self.stays.contains(&offer.from) || self.taken.contains(&(offer.from, anchor));
                offer.how == how && offer.anchor == anchor && offer.expr == *expr && (repeats || !moves || !is_taken)
            };
            if let Some(Offer { from, .. }) = offers.iter().find(fits) {
                self.link(to, how, *from);
            }
        }
    }

    /// FALSE comes from the equalities that stood at its anchor, or at the one above, and are gone; for anything else nothing accounts.
    fn link_rest(&mut self) {
        let stand: BTreeSet<usize> = self.links.iter().flatten().flat_map(|link| link.from.iter().copied()).collect();
        for to in self.unlinked() {
            let Conjunct { place: Place { anchor, .. }, expr, .. } = self.after.conjuncts[to];
            let above = self.before.anchors.get(anchor).and_then(|anchor| anchor.above).map(|(above, _)| above);
            let is_gone = |(from, old): &(usize, &Conjunct)| {
                let is_near = old.place.anchor == anchor || Some(old.place.anchor) == above;
                is_near && !stand.contains(from) && is(old.expr, EQ)
            };
            let gone: Vec<usize> =
                self.before.conjuncts.iter().enumerate().filter(is_gone).map(|(from, _)| from).collect();
            self.links[to] = Some(match *expr == boolean(false) && !gone.is_empty() {
                true => Link { how: How::Contradiction, from: gone },
                false => Link { how: How::New, from: Vec::new() },
            });
        }
    }
}

/// The links from the first of several plans to the last, from those between each and the next.
pub fn composed(first: &Outline, last: &Outline, steps: &[Links]) -> Links {
    let start = (0..first.conjuncts.len()).map(|at| Link { how: How::Stays, from: vec![at] }).collect();
    let links: Links =
        steps.iter().fold(start, |so_far: Links, step| step.iter().map(|link| onto(&so_far, link)).collect());
    let settled = |(to, link): (usize, Link)| match link.how {
        How::Stays | How::Moved | How::Changed => {
            let (old, new) = (&first.conjuncts[link.from[0]], &last.conjuncts[to]);
            let how = match (old.expr == new.expr, old.place == new.place) {
                (true, true) => How::Stays,
                (true, false) => How::Moved,
                (false, _) => How::Changed,
            };
            Link { how, ..link }
        }
        _ => link,
    };
    links.into_iter().enumerate().map(settled).collect()
}

/// A link behind those that lead to where it begins.
fn onto(so_far: &Links, link: &Link) -> Link {
    let before: Vec<&Link> = link.from.iter().map(|&from| &so_far[from]).collect();
    let mut from: Vec<usize> = before.iter().flat_map(|link| link.from.iter().copied()).collect();
    from.sort_unstable();
    from.dedup();
    let how = before.iter().map(|link| link.how).chain([link.how]).max().unwrap_or(How::New);
    Link { how, from }
}

/// The conjuncts of the plan before that nothing of the plan after stands for.
pub fn gone(before: &Outline, links: &Links) -> Vec<usize> {
    let stands = |how: How| matches!(how, How::Stays | How::Moved | How::Changed);
    let leads = |from: &usize| links.iter().any(|link| stands(link.how) && link.from.contains(from));
    (0..before.conjuncts.len()).filter(|from| !leads(from)).collect()
}

#[cfg(test)]
mod tests {
    use super::*;
    use push_down_filter::text::{expr, read, Names};

    fn plan(text: &str) -> Tree {
        read(text, &Names::NONE).unwrap_or_else(|trouble| panic!("{trouble}")).plan
    }

    fn shown(outline: &Outline, at: usize) -> String {
        expr(outline.conjuncts[at].expr, &Names::NONE)
    }

    /// A line for each conjunct after, and one for each that is gone.
    fn told(before: &Outline, after: &Outline, links: &Links) -> Vec<String> {
        let stand = links.iter().enumerate().map(|(to, link)| {
            let from: Vec<String> = link.from.iter().map(|&from| shown(before, from)).collect();
            format!("{} {:?} {}", shown(after, to), link.how, from.join(" | "))
        });
        let gone = gone(before, links).into_iter().map(|from| format!("{} is gone", shown(before, from)));
        stand.chain(gone).collect()
    }

    fn linked(before: &str, after: &str) -> Vec<String> {
        let [before, after] = [before, after].map(plan);
        let [before, after] = [&before, &after].map(Outline::of);
        told(&before, &after, &links(&before, &after))
    }

    #[test]
    fn a_scan_takes_some() {
        let found = linked(
            "Filter c1 > 5 AND c2 = 3\n  TableScan 1 [c1:int:marked, c2:int] filters [c1 < 9]\n",
            "Filter c2 = 3\n  TableScan 1 [c1:int:marked, c2:int] filters [c1 < 9, c1 > 5]\n",
        );
        assert_eq!(found, ["c2 = 3 Stays c2 = 3", "c1 < 9 Stays c1 < 9", "c1 > 5 Moved c1 > 5"]);
    }

    #[test]
    fn filters_are_merged() {
        let found = linked(
            "Filter c1 >= 7 AND c2 = 1\n  Filter c1 > 3 AND c2 = 1\n    TableScan 1 [c1:int, c2:int]\n",
            "Filter c2 = 1 AND c1 >= 7\n  TableScan 1 [c1:int, c2:int]\n",
        );
        assert_eq!(found, ["c2 = 1 Stays c2 = 1", "c1 >= 7 Moved c1 >= 7", "c2 = 1 is gone", "c1 > 3 is gone"]);
    }

    #[test]
    fn a_union_hands_copies_down() {
        let inputs = ["TableScan 1 [c1:int]", "TableScan 2 [c2:int]"];
        let [one, other] = inputs;
        let found = linked(
            &format!("Filter c1 > 5\n  Union\n    {one}\n    {other}\n"),
            &format!("Union\n  Filter c1 > 5\n    {one}\n  Filter c2 > 5\n    {other}\n"),
        );
        assert_eq!(found, ["c1 > 5 Moved c1 > 5", "c2 > 5 Changed c1 > 5"]);
    }

    #[test]
    fn an_entry_falls_into_conjuncts() {
        let found = linked(
            "Filter c3\n  Projection [c3 := c1 > 5 AND c2 = 1]\n    TableScan 1 [c1:int, c2:int]\n",
            "Projection [c3 := c1 > 5 AND c2 = 1]\n  Filter c1 > 5 AND c2 = 1\n    TableScan 1 [c1:int, c2:int]\n",
        );
        assert_eq!(found, ["c1 > 5 Changed c3", "c2 = 1 Changed c3"]);
    }

    #[test]
    fn a_join_infers_and_asks() {
        let scans = ["TableScan 1 [t1.c1:int, t1.c2:int]", "TableScan 2 [t2.c1:int]"];
        let [one, other] = scans;
        let both = "t1.c2 = 1 AND t2.c1 = 2 OR t1.c2 = 3";
        let found = linked(
            &format!("Filter t1.c1 > 5 AND ({both})\n  Join Inner on [t1.c1 = t2.c1]\n    {one}\n    {other}\n"),
            &format!(
                "Join Inner on [t1.c1 = t2.c1] filter {both}\n  Filter t1.c1 > 5 AND (t1.c2 = 1 OR t1.c2 = 3)\n    {one}\n  \
                 Filter t2.c1 > 5\n    {other}\n"
            ),
        );
        let expected = [
            format!("{both} Moved {both}"),
            "t1.c1 > 5 Moved t1.c1 > 5".to_string(),
            format!("t1.c2 = 1 OR t1.c2 = 3 Clause {both}"),
            "t2.c1 > 5 Inferred t1.c1 > 5".to_string(),
        ];
        assert_eq!(found, expected);
    }

    #[test]
    fn a_contradiction_has_all_its_origins() {
        let found = linked(
            "Filter c1 = 1 AND c1 = 2 AND c2 >= 0 AND c2 > 0\n  Limit skip 0 fetch 1\n    TableScan 1 [c1:int, c2:int]\n",
            "Filter FALSE AND c2 > 0\n  Limit skip 0 fetch 1\n    TableScan 1 [c1:int, c2:int]\n",
        );
        let expected = [
            "FALSE Contradiction c1 = 1 | c1 = 2",
            "c2 > 0 Stays c2 > 0",
            "c1 = 1 is gone",
            "c1 = 2 is gone",
            "c2 >= 0 is gone",
        ];
        assert_eq!(found, expected);
    }

    #[test]
    fn what_nothing_accounts_for_is_new() {
        let found = linked("Filter c1 > 5\n  TableScan 1 [c1:int]\n", "Filter c1 > 6\n  TableScan 1 [c1:int]\n");
        assert_eq!(found, ["c1 > 6 New ", "c1 > 5 is gone"]);
    }

    #[test]
    fn steps_are_composed() {
        let texts = [
            "Filter t9.c1 > 5\n  SubqueryAlias t9\n    Distinct\n      TableScan 1 [c1:int]\n",
            "SubqueryAlias t9\n  Filter c1 > 5\n    Distinct\n      TableScan 1 [c1:int]\n",
            "SubqueryAlias t9\n  Distinct\n    Filter c1 > 5\n      TableScan 1 [c1:int]\n",
        ];
        let plans = texts.map(plan);
        let outlines: Vec<Outline> = plans.iter().map(Outline::of).collect();
        let steps: Vec<Links> = outlines.windows(2).map(|pair| links(&pair[0], &pair[1])).collect();
        assert_eq!([steps[0][0].how, steps[1][0].how], [How::Changed, How::Moved]);
        let whole = composed(&outlines[0], &outlines[2], &steps);
        assert_eq!(told(&outlines[0], &outlines[2], &whole), ["c1 > 5 Changed t9.c1 > 5"]);
    }
}
