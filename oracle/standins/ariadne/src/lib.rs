//! Stand-in for ariadne: what the original's error reports name. No pass asks
//! for a report, and asking for one here ends the run.

use std::fmt::Display;
use std::marker::PhantomData;

#[derive(Debug, Clone, Copy)]
pub struct Config;

#[derive(Debug, Clone, Copy)]
pub enum Color {
    Yellow,
    Cyan,
    Magenta,
}

pub enum ReportKind {
    Error,
    Warning,
    Advice,
}

/// Colouring, which here leaves the text as it is.
pub trait Fmt: Display {
    fn fg<C>(&self, _: C) -> String {
        self.to_string()
    }
}

impl<T: Display + ?Sized> Fmt for T {}

pub struct Label<S>(PhantomData<S>);

impl<S> Label<S> {
    pub fn new(_: S) -> Self {
        Label(PhantomData)
    }

    pub fn with_message(self, _: impl ToString) -> Self {
        self
    }

    pub fn with_order(self, _: i32) -> Self {
        self
    }

    pub fn with_color(self, _: Color) -> Self {
        self
    }
}

pub struct Report<'a, S>(PhantomData<&'a S>);

impl<'a, S> Report<'a, S> {
    pub fn build(_: ReportKind, _: S) -> ReportBuilder<'a, S> {
        panic!("no pass reports an error")
    }
}

pub struct ReportBuilder<'a, S>(PhantomData<&'a S>);

impl<'a, S> ReportBuilder<'a, S> {
    pub fn with_config(self, _: Config) -> Self {
        self
    }

    pub fn with_code(self, _: impl Display) -> Self {
        self
    }

    pub fn with_message(self, _: impl ToString) -> Self {
        self
    }

    pub fn with_label(self, _: Label<S>) -> Self {
        self
    }

    pub fn with_note(self, _: impl ToString) -> Self {
        self
    }

    pub fn with_help(self, _: impl ToString) -> Self {
        self
    }

    pub fn finish(self) -> Report<'a, S> {
        Report(PhantomData)
    }
}
