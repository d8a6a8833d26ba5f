//! What a list of statements shows: the wished view, candidates, sealed histories, certificates.

use crate::index::{hash_of, Index};
use crate::rules::{Document, Rules};
use crate::statement::{Binding, Body, Report, Statement, Told};
use crate::view::{alone, History, Set, View};

/// A payload that a quorum of a sealed top signed for.
#[derive(Clone, Copy, PartialEq, Eq, Debug)]
pub struct Quorum {
    pub payload: u64,
    /// The least such top, as written.
    pub top: View,
    /// All members of that top that signed for it there.
    pub signers: Set,
}

/// What a list of statements shows of one notice.
#[derive(Clone, Debug, Default)]
pub struct Known {
    /// The payloads that have a certificate, each once and by rising payload, with those that acknowledged it.
    pub certificates: Vec<Quorum>,
    /// The payloads that a quorum of a sealed top stored, in the same way, with those that stored it.
    pub stored: Vec<Quorum>,
    /// The payloads that the sender prepared, in order of arrival.
    pub prepares: Vec<u64>,
}

impl Known {
    pub fn certificate(&self) -> Option<u64> {
        self.certificates.first().map(|acks| acks.payload)
    }

    /// The acks behind the payload's certificate, if it has one.
    pub fn acks(&self, payload: u64) -> Option<&Quorum> {
        self.certificates.iter().find(|acks| acks.payload == payload)
    }

    /// The stores of the payload, if a quorum of a sealed top stored it.
    pub fn stores(&self, payload: u64) -> Option<&Quorum> {
        self.stored.iter().find(|stores| stores.payload == payload)
    }

    /// Whether what a report tells has its grounds here.
    fn grounds<R: Rules>(&self, told: &Told) -> bool {
        let bound = match told.binding {
            Binding::Unbound => true,
            Binding::Bound(payload) => self.prepares.contains(&payload),
            Binding::Barred => self.prepares.iter().any(|payload| *payload != self.prepares[0]),
        };
        (bound || !R::PREPARED_ONLY) && told.kept.is_none_or(|payload| self.acks(payload).is_some())
    }
}

/// What a list of statements shows in a ring with a given initial view and a sender for each notice.
#[derive(Clone, Debug)]
pub struct Evidence {
    pub wished: View,
    /// All candidates, by rising size.
    pub candidates: Vec<View>,
    /// All sealed histories, each once, by rising length.
    pub sealed: Vec<History>,
    /// The tops of the sealed histories, each once.
    pub tops: Vec<View>,
    /// By the number of the notice.
    pub notices: Vec<Known>,
}

impl Evidence {
    pub fn of(initial: View, senders: &[u8], statements: &[Statement]) -> Evidence {
        Evidence::gather::<Document>(initial, senders, statements)
    }

    pub(crate) fn gather<R: Rules>(initial: View, senders: &[u8], statements: &[Statement]) -> Evidence {
        let mut tally = Tally::count::<R>(senders, statements);
        let joined = initial.joined() | tally.joins;
        let wished = View::new(joined, initial.left() | (tally.leaves & joined));
        let shown = Shown::settle::<R>(initial, wished, &tally);
        let notices = shown.notices::<R>(&mut tally);
        Evidence { wished, candidates: shown.candidates.list, sealed: shown.sealed, tops: shown.tops.list, notices }
    }

    /// Whether the statements contradict each other, which ends every turn with refusal 7.
    pub fn conflict(&self) -> bool {
        // Sorted by size, a list of views is a chain exactly if each lies within the next.
        let fork = self.candidates.windows(2).any(|pair| !pair[0].within(pair[1]));
        let torn = self.notices.iter().any(|known| known.certificates.len() > 1);
        fork || torn || self.greatest().is_none()
    }

    /// The sealed history that holds every other, if the sealed histories form a chain.
    pub fn greatest(&self) -> Option<&History> {
        let chain = self.sealed.windows(2).all(|pair| pair[1].holds(&pair[0]));
        self.sealed.last().filter(|_| chain)
    }

    /// Whether some sealed history lacks the view and has a greater top, so that entering needs no reports on the view.
    pub fn skips(&self, view: View) -> bool {
        let passes = |history: &History| view.strictly_within(history.top()) && !history.views().contains(&view);
        self.sealed.iter().any(passes)
    }

    /// Whether a report by `origin` counts.
    pub fn counts(&self, origin: u8, report: &Report) -> bool {
        self.counts_by::<Document>(origin, report)
    }

    pub(crate) fn counts_by<R: Rules>(&self, origin: u8, report: &Report) -> bool {
        report.at.has_member(origin)
            && report.view.within(self.wished)
            && report.history.views().iter().all(|view| self.candidates.contains(view))
            && report.told.len() == self.notices.len()
            && self.notices.iter().zip(&*report.told).all(|(known, told)| known.grounds::<R>(told))
    }
}

/// Whether the signers make up a quorum of `at`.
pub(crate) fn is_quorum<R: Rules>(at: View, signers: Set) -> bool {
    let needed = if R::FULL_QUORUM { at.quorum() } else { at.quorum().map(|_| 1) };
    needed.is_some_and(|needed| signers.count_ones() >= needed)
}

/// The signers of each different vote, a vote being a view it is cast at, its notice, and what it is for.
struct Votes {
    groups: Vec<Group>,
    index: Index,
}

struct Group {
    at: View,
    /// 0 in votes that are about no notice.
    notice: u8,
    choice: u64,
    signers: Set,
}

impl Group {
    /// The votes for a payload at a sealed top, once they are known to be a quorum's.
    fn quorum(&self) -> Quorum {
        Quorum { payload: self.choice, top: self.at, signers: self.signers }
    }
}

/// Of several tops for one payload the least, as written: the joined set is the upper half of a view's bits, and so goes first.
fn keep_least<R: Rules>(quorums: &mut Vec<Quorum>) {
    quorums.sort_unstable_by_key(|quorum| (quorum.payload, quorum.top.bits()));
    if !R::LEAST_TOP {
        quorums.reverse();
    }
    quorums.dedup_by_key(|quorum| quorum.payload);
}

impl Votes {
    fn with_room(votes: usize) -> Votes {
        Votes { groups: Vec::new(), index: Index::for_keys(votes) }
    }

    fn cast<R: Rules>(&mut self, origin: u8, at: View, notice: u8, choice: u64) {
        if R::MEMBERS_ONLY && !at.has_member(origin) {
            return;
        }
        let groups = &mut self.groups;
        let same = |place: usize| groups[place].at == at && groups[place].notice == notice && groups[place].choice == choice;
        // A view leaves half of a word free for the notice.
        let place = u64::from(at.bits()) | u64::from(notice) << 32;
        match self.index.find(hash_of(&(place, choice)), same) {
            Ok(place) => groups[place].signers |= alone(origin),
            Err(slot) => {
                self.index.put(slot, groups.len());
                groups.push(Group { at, notice, choice, signers: alone(origin) });
            }
        }
    }

    fn quorums<R: Rules>(&self) -> impl Iterator<Item = &Group> {
        self.groups.iter().filter(|group| is_quorum::<R>(group.at, group.signers))
    }
}

/// The different histories that were voted for; a vote names one by its place.
struct Histories<'a> {
    list: Vec<&'a History>,
    index: Index,
}

impl<'a> Histories<'a> {
    fn number(&mut self, history: &'a History) -> u64 {
        let place = match self.index.find(hash_of(history), |place| self.list[place] == history) {
            Ok(place) => place,
            Err(slot) => {
                self.index.put(slot, self.list.len());
                self.list.push(history);
                self.list.len() - 1
            }
        };
        place as u64
    }
}

/// The statements of a list, grouped in one pass.
struct Tally<'a> {
    joins: Set,
    leaves: Set,
    /// What was prepared; the rest is not known yet.
    notices: Vec<Known>,
    views: Votes,
    histories: Votes,
    acks: Votes,
    stores: Votes,
    named: Histories<'a>,
}

impl<'a> Tally<'a> {
    fn count<R: Rules>(senders: &[u8], statements: &'a [Statement]) -> Tally<'a> {
        let room = statements.len();
        let mut tally = Tally {
            joins: 0,
            leaves: 0,
            notices: vec![Known::default(); senders.len()],
            views: Votes::with_room(room),
            histories: Votes::with_room(room),
            acks: Votes::with_room(room),
            stores: Votes::with_room(room),
            named: Histories { list: Vec::new(), index: Index::for_keys(room) },
        };
        for Statement { origin, body } in statements {
            match body {
                Body::Join => tally.joins |= alone(*origin),
                Body::Leave => tally.leaves |= alone(*origin),
                Body::AgreeView { at, view } => tally.views.cast::<R>(*origin, *at, 0, view.bits().into()),
                Body::AgreeHistory { at, history } => {
                    let number = tally.named.number(history);
                    tally.histories.cast::<R>(*origin, *at, 0, number);
                }
                Body::Report(_) => {}
                Body::Prepare { notice, payload } if senders.get(usize::from(*notice)) == Some(origin) => {
                    tally.notices[usize::from(slot::<R>(*notice))].prepares.push(*payload);
                }
                Body::Prepare { .. } => {}
                Body::Ack { at, notice, payload } => tally.acks.cast::<R>(*origin, *at, slot::<R>(*notice), *payload),
                Body::Store { at, notice, payload } => tally.stores.cast::<R>(*origin, *at, slot::<R>(*notice), *payload),
            }
        }
        tally
    }
}

/// Where what is said of a notice is counted.
fn slot<R: Rules>(notice: u8) -> u8 {
    if R::NOTICES_APART {
        notice
    } else {
        0
    }
}

/// A list of different views that is quick to search.
struct Views {
    list: Vec<View>,
    index: Index,
}

impl Views {
    fn holding(view: View, room: usize) -> Views {
        let mut views = Views { list: Vec::new(), index: Index::for_keys(room) };
        views.insert(view);
        views
    }

    fn seek(&self, view: View) -> Result<usize, usize> {
        self.index.find(hash_of(&view), |place| self.list[place] == view)
    }

    fn contains(&self, view: View) -> bool {
        self.seek(view).is_ok()
    }

    fn insert(&mut self, view: View) {
        if let Err(slot) = self.seek(view) {
            self.index.put(slot, self.list.len());
            self.list.push(view);
        }
    }
}

/// A quorum of `at` agreed on a choice, which is a view or a history with its greatest view.
struct Agreed<T> {
    at: View,
    choice: T,
    size: u32,
}

/// The candidates and sealed histories, found from the smallest views upwards.
struct Shown {
    candidates: Views,
    tops: Views,
    sealed: Vec<History>,
}

impl Shown {
    /// Settles all candidates of a size before the histories with a top of that size, and smaller sizes first:
    /// each of them rests only on strictly smaller tops, and a history only on candidates up to its own top.
    fn settle<R: Rules>(initial: View, wished: View, tally: &Tally) -> Shown {
        let chosen = chosen_views::<R>(tally);
        let agreed = agreed_histories::<R>(tally);
        let mut shown = Shown {
            candidates: Views::holding(initial, chosen.len() + 1),
            tops: Views::holding(initial, agreed.len() + 1),
            sealed: History::new(&[initial]).into_iter().collect(),
        };
        let mut last = None;
        let mut waiting = chosen.iter().peekable();
        for vote in &agreed {
            while let Some(choice) = waiting.next_if(|choice| choice.size <= vote.size) {
                shown.choose(choice, wished);
            }
            // Votes for one history stand together, so a history that is sealed already is the last one sealed.
            if last != Some(vote.choice) && shown.is_sealed(vote, initial) {
                last = Some(vote.choice);
                shown.sealed.push(*vote.choice);
                shown.tops.insert(vote.choice.top());
            }
        }
        waiting.for_each(|choice| shown.choose(choice, wished));
        shown.sealed.sort_by_key(|history| history.views().len());
        shown
    }

    fn choose(&mut self, vote: &Agreed<View>, wished: View) {
        let view = vote.choice;
        if view.has_members() && view.within(wished) && vote.at.strictly_within(view) && self.tops.contains(vote.at) {
            self.candidates.insert(view);
        }
    }

    fn is_sealed(&self, vote: &Agreed<&History>, initial: View) -> bool {
        vote.choice.first() == initial
            && vote.choice.below_top().contains(&vote.at)
            && self.tops.contains(vote.at)
            && vote.choice.views().iter().all(|view| self.candidates.contains(*view))
    }

    /// What was prepared, certified and stored of each notice.
    fn notices<R: Rules>(&self, tally: &mut Tally) -> Vec<Known> {
        let mut notices = std::mem::take(&mut tally.notices);
        for group in self.voted_at_tops::<R>(&tally.acks) {
            let Some(known) = notices.get_mut(usize::from(group.notice)) else { continue };
            if !R::PREPARED_ONLY || known.prepares.contains(&group.choice) {
                known.certificates.push(group.quorum());
            }
        }
        for group in self.voted_at_tops::<R>(&tally.stores) {
            let Some(known) = notices.get_mut(usize::from(group.notice)) else { continue };
            known.stored.push(group.quorum());
        }
        for known in &mut notices {
            keep_least::<R>(&mut known.certificates);
            keep_least::<R>(&mut known.stored);
        }
        if !R::NOTICES_APART {
            let all = notices[0].clone();
            notices.fill(all);
        }
        notices
    }

    /// The votes of a quorum of a sealed top; one choice may come from several tops.
    fn voted_at_tops<'a, R: Rules>(&'a self, votes: &'a Votes) -> impl Iterator<Item = &'a Group> {
        votes.quorums::<R>().filter(|group| self.tops.contains(group.at))
    }
}

fn chosen_views<R: Rules>(tally: &Tally) -> Vec<Agreed<View>> {
    let agreed = |group: &Group| {
        let choice = View::from_bits(group.choice as u32);
        Agreed { at: group.at, choice, size: choice.size() }
    };
    let mut chosen: Vec<_> = tally.views.quorums::<R>().map(agreed).collect();
    chosen.sort_unstable_by_key(|vote| (vote.size, vote.choice));
    chosen
}

fn agreed_histories<'a, R: Rules>(tally: &Tally<'a>) -> Vec<Agreed<&'a History>> {
    let mut votes: Vec<&Group> = tally.histories.quorums::<R>().collect();
    let history = |group: &Group| tally.named.list[group.choice as usize];
    votes.sort_unstable_by_key(|group| (history(group).top().size(), group.choice));
    let agreed = |group: &&Group| {
        let choice = history(group);
        Agreed { at: group.at, choice, size: choice.top().size() }
    };
    votes.iter().map(agreed).collect()
}
