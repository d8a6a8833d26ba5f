//! Statements, their field rules and their one written form.

use std::rc::Rc;

use crate::text::{read_decimal, read_hex, read_small, write_decimal, write_hex};
use crate::view::{History, View, CONTROLLERS};

/// The most notices that a setup names.
pub const NOTICES: usize = 64;

/// The kind of a report, the only one that has a group for each notice.
const REPORT: u8 = 5;

/// What a controller is bound to acknowledge.
#[derive(Clone, Copy, PartialEq, Eq, Hash, Debug, Default)]
pub enum Binding {
    #[default]
    Unbound,
    Bound(u64),
    Barred,
}

impl Binding {
    /// The binding of one who knows of both: barred if either is or the payloads differ.
    pub fn join(self, other: Binding) -> Binding {
        match (self, other) {
            (Binding::Unbound, binding) | (binding, Binding::Unbound) => binding,
            (Binding::Bound(mine), Binding::Bound(theirs)) if mine == theirs => self,
            _ => Binding::Barred,
        }
    }
}

/// What a report tells of one notice.
#[derive(Clone, Copy, PartialEq, Eq, Hash, Debug, Default)]
pub struct Told {
    pub binding: Binding,
    /// The payload of the reporter's certificate, if it held one.
    pub kept: Option<u64>,
}

/// What a member of an older view knew when it learnt of a greater one.
#[derive(Clone, PartialEq, Eq, Hash, Debug)]
pub struct Report {
    pub at: View,
    /// The wished view of the reporter's record.
    pub view: View,
    /// By the number of the notice; shared, because many records hold one report.
    pub told: Rc<[Told]>,
    /// All candidates of the reporter's record.
    pub history: History,
}

#[derive(Clone, PartialEq, Eq, Hash, Debug)]
pub enum Body {
    Join,
    Leave,
    AgreeView { at: View, view: View },
    AgreeHistory { at: View, history: History },
    Report(Report),
    Prepare { notice: u8, payload: u64 },
    Ack { at: View, notice: u8, payload: u64 },
    Store { at: View, notice: u8, payload: u64 },
}

/// What one controller signed.
#[derive(Clone, PartialEq, Eq, Hash, Debug)]
pub struct Statement {
    pub origin: u8,
    pub body: Body,
}

/// The four fields that a report repeats for each notice.
#[derive(Clone, Copy, PartialEq, Eq, Debug, Default)]
pub struct Group {
    pub binding: u8,
    pub payload: u64,
    pub stored: u8,
    pub kept: u64,
}

impl Group {
    fn parse<'a>(mut next: impl FnMut() -> Option<&'a [u8]>) -> Option<Group> {
        Some(Group {
            binding: read_small(next()?)?,
            payload: read_decimal(next()?)?,
            stored: read_small(next()?)?,
            kept: read_decimal(next()?)?,
        })
    }

    fn write_into(&self, out: &mut Vec<u8>) {
        for number in [u64::from(self.binding), self.payload, u64::from(self.stored), self.kept] {
            out.push(b',');
            write_decimal(out, number);
        }
    }

    fn of(told: &Told) -> Group {
        let (binding, payload) = match told.binding {
            Binding::Unbound => (0, 0),
            Binding::Bound(payload) => (1, payload),
            Binding::Barred => (2, 0),
        };
        let (stored, kept) = told.kept.map_or((0, 0), |payload| (1, payload));
        Group { binding, payload, stored, kept }
    }

    fn told(&self) -> Option<Told> {
        let binding = match self.binding {
            0 => Binding::Unbound,
            1 => Binding::Bound(self.payload),
            2 => Binding::Barred,
            _ => return None,
        };
        let kept = match self.stored {
            0 => None,
            1 => Some(self.kept),
            _ => return None,
        };
        Some(Told { binding, kept })
    }
}

/// The fields of a written statement in their order, whether or not they keep the field rules.
#[derive(Clone, PartialEq, Eq, Debug, Default)]
pub struct Fields {
    pub kind: u8,
    pub origin: u8,
    pub at: View,
    pub view: View,
    pub notice: u8,
    /// The group of notice 0 in a report, the only group in every other kind.
    pub first: Group,
    /// The groups of a report's other notices.
    pub others: Vec<Group>,
    pub count: u8,
    pub views: Vec<View>,
}

impl Fields {
    /// Reads the written form in a ring of that many notices, without looking at the field rules.
    pub fn parse(text: &[u8], notices: usize) -> Option<Fields> {
        let mut parts = text.split(|&byte| byte == b',');
        let mut next = || parts.next();
        let view = |part| read_hex(part, 8).map(View::from_bits);
        let mut fields = Fields {
            kind: read_small(next()?)?,
            origin: read_small(next()?)?,
            at: view(next()?)?,
            view: view(next()?)?,
            notice: read_small(next()?)?,
            first: Group::parse(&mut next)?,
            ..Fields::default()
        };
        if fields.kind == REPORT {
            fields.others = (1..notices).map(|_| Group::parse(&mut next)).collect::<Option<_>>()?;
        }
        fields.count = read_small(next()?)?;
        for part in parts {
            fields.views.push(view(part)?);
        }
        (fields.views.len() == usize::from(fields.count)).then_some(fields)
    }

    pub fn write_into(&self, out: &mut Vec<u8>) {
        write_decimal(out, u64::from(self.kind));
        out.push(b',');
        write_decimal(out, u64::from(self.origin));
        for view in [self.at, self.view] {
            out.push(b',');
            write_hex(out, view.bits(), 8);
        }
        out.push(b',');
        write_decimal(out, u64::from(self.notice));
        self.groups().for_each(|group| group.write_into(out));
        out.push(b',');
        write_decimal(out, u64::from(self.count));
        for view in &self.views {
            out.push(b',');
            write_hex(out, view.bits(), 8);
        }
    }

    /// All groups in their order.
    pub fn groups(&self) -> impl Iterator<Item = &Group> {
        std::iter::once(&self.first).chain(&self.others)
    }

    fn set_history(&mut self, history: &History) {
        self.views = history.views().to_vec();
        self.count = self.views.len() as u8;
    }

    fn set_report(&mut self, report: &Report) {
        (self.at, self.view) = (report.at, report.view);
        let mut groups = report.told.iter().map(Group::of);
        self.first = groups.next().unwrap_or_default();
        self.others = groups.collect();
        self.set_history(&report.history);
    }

    fn report(&self) -> Option<Report> {
        let told = self.groups().map(Group::told).collect::<Option<_>>()?;
        Some(Report { at: self.at, view: self.view, told, history: History::new(&self.views)? })
    }
}

impl Statement {
    pub fn new(origin: u8, body: Body) -> Statement {
        Statement { origin, body }
    }

    /// Reads a written statement that keeps the field rules in a ring of that many notices.
    pub fn read(text: &[u8], notices: usize) -> Option<Statement> {
        Statement::from_fields(&Fields::parse(text, notices)?, notices)
    }

    pub fn write(&self) -> Vec<u8> {
        let mut text = Vec::new();
        self.write_into(&mut text);
        text
    }

    pub fn write_into(&self, out: &mut Vec<u8>) {
        self.fields().write_into(out);
    }

    pub fn fields(&self) -> Fields {
        let mut fields = Fields { kind: self.kind(), origin: self.origin, ..Fields::default() };
        match &self.body {
            Body::Join | Body::Leave => {}
            Body::AgreeView { at, view } => (fields.at, fields.view) = (*at, *view),
            Body::AgreeHistory { at, history } => {
                fields.at = *at;
                fields.set_history(history);
            }
            Body::Report(report) => fields.set_report(report),
            Body::Prepare { notice, payload } => (fields.notice, fields.first.payload) = (*notice, *payload),
            Body::Ack { at, notice, payload } | Body::Store { at, notice, payload } => {
                (fields.at, fields.notice, fields.first.payload) = (*at, *notice, *payload);
            }
        }
        fields
    }

    /// The statement that the fields stand for, if they keep the field rules.
    pub fn from_fields(fields: &Fields, notices: usize) -> Option<Statement> {
        let Fields { at, view, notice, first: Group { payload, .. }, .. } = *fields;
        let body = match fields.kind {
            1 => Body::Join,
            2 => Body::Leave,
            3 => Body::AgreeView { at, view },
            4 => Body::AgreeHistory { at, history: History::new(&fields.views)? },
            REPORT => Body::Report(fields.report()?),
            6 => Body::Prepare { notice, payload },
            7 => Body::Ack { at, notice, payload },
            8 => Body::Store { at, notice, payload },
            _ => return None,
        };
        let statement = Statement::new(fields.origin, body);
        // Writing the fields anew shows that each one the kind does not use was zero.
        (statement.keeps_field_rules(notices) && statement.fields() == *fields).then_some(statement)
    }

    pub fn kind(&self) -> u8 {
        match self.body {
            Body::Join => 1,
            Body::Leave => 2,
            Body::AgreeView { .. } => 3,
            Body::AgreeHistory { .. } => 4,
            Body::Report(_) => REPORT,
            Body::Prepare { .. } => 6,
            Body::Ack { .. } => 7,
            Body::Store { .. } => 8,
        }
    }

    /// The notice that the statement is about; 0, which every setup has, for the kinds that are about none.
    pub fn notice(&self) -> u8 {
        match self.body {
            Body::Prepare { notice, .. } | Body::Ack { notice, .. } | Body::Store { notice, .. } => notice,
            _ => 0,
        }
    }

    /// The field rules that the types leave open; a `History` keeps its own.
    pub fn keeps_field_rules(&self, notices: usize) -> bool {
        let inhabited = |view: View| view.is_view() && view.has_members();
        let fields = match &self.body {
            Body::Join | Body::Leave | Body::Prepare { .. } => true,
            Body::AgreeView { at, view } => inhabited(*at) && inhabited(*view),
            Body::AgreeHistory { at, .. } | Body::Ack { at, .. } | Body::Store { at, .. } => inhabited(*at),
            Body::Report(Report { at, view, told, .. }) => inhabited(*at) && view.is_view() && told.len() == notices,
        };
        fields && self.origin < CONTROLLERS
    }
}
