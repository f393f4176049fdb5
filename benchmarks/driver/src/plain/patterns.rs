//! What the builders of the three patterns ask of a service.

pub mod event;
pub mod publish_subscribe;
pub mod request_response;

use super::description::MessagingPattern;
use super::errors::{CreateRefusal, OpenRefusal, ServiceState};
use std::collections::TryReserveError;
use std::time::Duration;

/// What one call asks, and how its pattern names what goes wrong.
pub trait Pattern: Sized {
    /// What a look finds wrong.
    type Fault: Copy + From<ServiceState>;
    type OpenError: Copy + Eq + From<Self::Fault> + From<OpenRefusal>;
    type CreateError: Copy + Eq + From<Self::Fault> + From<CreateRefusal>;

    /// Stands before the name in the hash.
    const PREFIX: u8;

    /// Raises the zeros that a create may not leave.
    fn adjust(&mut self);

    /// Why a service of the right hash isn't one of this pattern with these types.
    fn misfit(&self, existing: &MessagingPattern) -> Option<Self::Fault>;

    /// Whether a service has what is required of its settings.
    fn verify(&self, existing: &MessagingPattern) -> Result<(), Self::OpenError>;

    /// Why no create may have these settings.
    fn settings_refusal(&self) -> Option<Self::CreateError>;

    /// Whether a create has to know the time.
    fn needs_clock(&self) -> bool;

    /// What a create at this time publishes.
    fn into_published(self, now: Duration) -> MessagingPattern;

    fn try_clone(&self) -> Result<Self, TryReserveError>;
}

/// Refuses a number that is less than a required one.
fn need_at_least<E>(is_marked: bool, offered: u64, wanted: u64, error: E) -> Result<(), E> {
    if is_marked && offered < wanted {
        return Err(error);
    }
    Ok(())
}

/// Refuses another value than a required one.
fn need_same<T: PartialEq, E>(is_marked: bool, offered: T, wanted: T, error: E) -> Result<(), E> {
    if is_marked && offered != wanted {
        return Err(error);
    }
    Ok(())
}
