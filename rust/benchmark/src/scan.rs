//! Who signed a kind of statement at a view: one pass over a record of 512 in lent memory.

use std::hint::black_box;

use compare::evidence::as_mine;
use generate::Rng;
use pekdrav::{Kind, Pool, Record, STATEMENTS};
use reference::{Body, Statement, View};

use crate::measure::{head, measure, row};

const ORDERS: usize = 400;

/// Acks and stores at eight views, in no order.
fn statements() -> Vec<Statement> {
    let mut rng = Rng::new(3);
    let at = |place: usize| View::new(0xff, ((1u32 << place) - 1) as u16);
    let body = |rng: &mut Rng| {
        let (at, payload) = (at(rng.below(8)), rng.draw());
        if rng.chance(50) {
            Body::Ack { at, notice: 0, payload }
        } else {
            Body::Store { at, notice: 0, payload }
        }
    };
    (0..STATEMENTS).map(|_| Statement::new(rng.below(16) as u8, body(&mut rng))).collect()
}

fn pool(statements: &[Statement]) -> Pool {
    let mut pool = Pool::new();
    for (place, statement) in (0..).zip(statements) {
        assert_eq!(pool.append(&statement.write(), 1), Ok(place), "a statement is in the pool twice");
    }
    pool
}

fn theirs(statements: &[Statement], record: &Record, at: View) -> u32 {
    let mut set = 0;
    for &number in record.numbers() {
        let statement = &statements[usize::from(number)];
        if matches!(statement.body, Body::Ack { at: mine, .. } if mine == at) {
            set |= 1 << statement.origin;
        }
    }
    set
}

/// Many orders of the same record, so that no scan goes by what the processor learnt from the one before.
fn orders() -> Vec<Record> {
    let mut rng = Rng::new(5);
    let mut numbers: [u16; STATEMENTS] = std::array::from_fn(|place| place as u16);
    let mut shuffled = || {
        (1..STATEMENTS).for_each(|place| numbers.swap(place, rng.below(place + 1)));
        Record::of(&numbers)
    };
    (0..ORDERS).filter_map(|_| shuffled()).collect()
}

pub fn print() {
    let statements = statements();
    let pool = pool(&statements);
    let orders = orders();
    head("Who acknowledged at a view, in a record of 512", "statement");
    for (name, at) in [("one in sixteen did", View::new(0xff, 0)), ("nobody did", View::new(0xff, 0xff00))] {
        let mine = |record: &Record| black_box(record).signers(&pool, Kind::Ack, as_mine(at));
        let theirs = |record: &Record| theirs(&statements, black_box(record), at);
        assert!(orders.iter().all(|record| mine(record) == theirs(record)), "the scans differ");
        let all = |scan: &dyn Fn(&Record) -> u32, orders: &[Record]| {
            black_box(orders.iter().fold(0, |set, record| set ^ scan(record)));
        };
        let times = measure(&orders, 16, |orders| all(&mine, orders), |orders| all(&theirs, orders));
        row(name, &times.of(STATEMENTS));
    }
}
