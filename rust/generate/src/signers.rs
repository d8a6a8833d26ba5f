//! A schedule for each limit that is about who signed, and about what a controller waits for.

use reference::{Body, History, Rules, Set, Statement, View, Window};

use crate::limits::{choose, rising};
use crate::maker::Maker;

/// The notices of `tops_apart`, and what is said of each.
const SAID: [(u8, u64); 2] = [(0, 7), (1, 8)];

/// A view of which 0 is a member, others joined and some of these left.
fn any_view<R: Rules>(maker: &mut Maker<R>) -> View {
    let size = maker.rng.between(1, 9);
    let joined = maker.rng.subset(!1, size) | 1;
    let gone = maker.rng.below(size);
    View::new(joined, maker.rng.subset(joined & !1, gone))
}

/// Most members of the view acknowledge and store at it, and so does somebody who is none.
fn sign_at<R: Rules>(maker: &mut Maker<R>, at: View) {
    let stranger = maker.rng.member(!at.members());
    let members = (0..16).filter(|&k| at.has_member(k)).collect::<Vec<u8>>();
    for (notice, payload) in SAID {
        for &origin in members.iter().chain(&stranger) {
            for body in [Body::Ack { at, notice, payload }, Body::Store { at, notice, payload }] {
                if maker.rng.chance(88) {
                    maker.lie(&Statement::new(origin, body));
                }
            }
        }
    }
}

/// A lone liar seals tops that are not comparable, and their members sign at each: which one is the least is a matter of how they are written. Notice 1 is
/// prepared by another than its sender.
pub fn tops_apart(maker: &mut Maker) {
    maker.setup(0x0001, &[0, 3], 0xffff);
    let initial = rising(1);
    for origin in 1..16 {
        maker.lie(&Statement::new(origin, Body::Join));
        maker.lie(&Statement::new(origin, Body::Leave));
    }
    for (notice, payload) in SAID {
        maker.lie(&Statement::new(0, Body::Prepare { notice, payload }));
    }
    for k in 0..maker.rng.between(2, 3) as u8 {
        let view = any_view(maker);
        let Some(history) = History::new(&[initial, view]) else { continue };
        maker.lie(&Statement::new(0, Body::AgreeView { at: initial, view }));
        maker.lie(&Statement::new(0, Body::AgreeHistory { at: initial, history }));
        sign_at(maker, view);
        maker.all(k);
        maker.turns(k, 3);
    }
    for k in 0..16 {
        maker.all(k);
    }
    maker.turns(0, 3);
}

/// A ring with a window whose first member asked to leave, and a history of some views that nobody else reports on: at the end that member waits for
/// both, and the others for reports.
pub fn waits(maker: &mut Maker) {
    let views = maker.rng.between(2, 16);
    maker.setup_with(0x0001, &[0], 0xffff, &[Window::new(3, 480, 540)]);
    let chain = choose(maker, views);
    let history = History::new(&chain).expect("a chain");
    maker.lie(&Statement::new(0, Body::AgreeHistory { at: chain[0], history }));
    maker.leave(0);
    let whom: Set = maker.rng.draw() as Set | 1;
    for k in (0..16).filter(|k| whom >> k & 1 == 1) {
        maker.all(k);
    }
    for k in 0..maker.rng.between(1, 5) as u8 {
        maker.turns(k, 20);
    }
    maker.all(0);
    maker.turns(0, 1);
}
