//! Services of request-response.

use super::{Pattern, need_at_least, need_same};
use crate::plain::description::{Messages, MessagingPattern, RequestResponseConfig};
use crate::plain::errors::{RequestResponseCreateError, RequestResponseOpenError, ServiceState};
use crate::plain::types::{Alignment, REQUEST_HEADER, RESPONSE_HEADER, RequestedTypes, TypeDetail};
use std::collections::TryReserveError;
use std::time::Duration;

/// One setter of the builder.
#[derive(Debug, PartialEq, Eq)]
pub enum RequestResponseSetter {
    EnableSafeOverflowForRequests(bool),
    EnableSafeOverflowForResponses(bool),
    EnableFireAndForgetRequests(bool),
    MaxActiveRequestsPerClient(u64),
    MaxLoanedRequests(u64),
    MaxBorrowedResponsesPerPendingResponse(u64),
    MaxResponseBufferSize(u64),
    MaxServers(u64),
    MaxClients(u64),
    MaxNodes(u64),
    RequestPayloadAlignment(Alignment),
    ResponsePayloadAlignment(Alignment),
    RequestPayloadType(TypeDetail),
    RequestHeaderType(TypeDetail),
    ResponsePayloadType(TypeDetail),
    ResponseHeaderType(TypeDetail),
}

/// Which settings are required.
#[derive(Clone, Copy, Debug, Default)]
struct Marks {
    enable_safe_overflow_for_requests: bool,
    enable_safe_overflow_for_responses: bool,
    enable_fire_and_forget_requests: bool,
    max_active_requests_per_client: bool,
    max_loaned_requests: bool,
    max_borrowed_responses_per_pending_response: bool,
    max_response_buffer_size: bool,
    max_servers: bool,
    max_clients: bool,
    max_nodes: bool,
}

/// A demand whose types aren't made yet.
#[derive(Debug)]
pub struct RequestResponseBuilder {
    settings: RequestResponseConfig,
    marks: Marks,
    request: RequestedTypes,
    response: RequestedTypes,
}

impl RequestResponseBuilder {
    pub fn new(settings: RequestResponseConfig) -> RequestResponseBuilder {
        RequestResponseBuilder {
            settings,
            marks: Marks::default(),
            request: RequestedTypes::default(),
            response: RequestedTypes::default(),
        }
    }

    pub fn set(&mut self, setter: RequestResponseSetter) {
        let RequestResponseBuilder {
            settings,
            marks,
            request,
            response,
        } = self;
        match setter {
            RequestResponseSetter::EnableSafeOverflowForRequests(value) => {
                settings.enable_safe_overflow_for_requests = value;
                marks.enable_safe_overflow_for_requests = true;
            }
            RequestResponseSetter::EnableSafeOverflowForResponses(value) => {
                settings.enable_safe_overflow_for_responses = value;
                marks.enable_safe_overflow_for_responses = true;
            }
            RequestResponseSetter::EnableFireAndForgetRequests(value) => {
                settings.enable_fire_and_forget_requests = value;
                marks.enable_fire_and_forget_requests = true;
            }
            RequestResponseSetter::MaxActiveRequestsPerClient(value) => {
                settings.max_active_requests_per_client = value;
                marks.max_active_requests_per_client = true;
            }
            RequestResponseSetter::MaxLoanedRequests(value) => {
                settings.max_loaned_requests = value;
                marks.max_loaned_requests = true;
            }
            RequestResponseSetter::MaxBorrowedResponsesPerPendingResponse(value) => {
                settings.max_borrowed_responses_per_pending_response = value;
                marks.max_borrowed_responses_per_pending_response = true;
            }
            RequestResponseSetter::MaxResponseBufferSize(value) => {
                settings.max_response_buffer_size = value;
                marks.max_response_buffer_size = true;
            }
            RequestResponseSetter::MaxServers(value) => {
                settings.max_servers = value;
                marks.max_servers = true;
            }
            RequestResponseSetter::MaxClients(value) => {
                settings.max_clients = value;
                marks.max_clients = true;
            }
            RequestResponseSetter::MaxNodes(value) => {
                settings.max_nodes = value;
                marks.max_nodes = true;
            }
            RequestResponseSetter::RequestPayloadAlignment(value) => {
                request.alignment = Some(value);
            }
            RequestResponseSetter::ResponsePayloadAlignment(value) => {
                response.alignment = Some(value);
            }
            RequestResponseSetter::RequestPayloadType(value) => request.payload = Some(value),
            RequestResponseSetter::RequestHeaderType(value) => request.user_header = Some(value),
            RequestResponseSetter::ResponsePayloadType(value) => response.payload = Some(value),
            RequestResponseSetter::ResponseHeaderType(value) => {
                response.user_header = Some(value);
            }
        }
    }

    /// What a call asks, with its types made.
    pub fn prepare(self) -> Result<RequestResponseDemand, TryReserveError> {
        Ok(RequestResponseDemand {
            settings: self.settings,
            marks: self.marks,
            messages: Box::new(Messages {
                request: self.request.prepare(&REQUEST_HEADER)?,
                response: self.response.prepare(&RESPONSE_HEADER)?,
            }),
        })
    }
}

#[derive(Debug)]
pub struct RequestResponseDemand {
    settings: RequestResponseConfig,
    marks: Marks,
    messages: Box<Messages>,
}

/// What a look finds wrong.
#[derive(Clone, Copy, Debug, PartialEq, Eq)]
pub enum Fault {
    State(ServiceState),
    IncompatibleRequestType,
    IncompatibleResponseType,
}

impl From<ServiceState> for Fault {
    fn from(state: ServiceState) -> Fault {
        Fault::State(state)
    }
}

impl From<Fault> for RequestResponseOpenError {
    fn from(fault: Fault) -> RequestResponseOpenError {
        match fault {
            Fault::State(state) => state.into(),
            Fault::IncompatibleRequestType => RequestResponseOpenError::IncompatibleRequestType,
            Fault::IncompatibleResponseType => RequestResponseOpenError::IncompatibleResponseType,
        }
    }
}

impl From<Fault> for RequestResponseCreateError {
    fn from(fault: Fault) -> RequestResponseCreateError {
        match fault {
            Fault::State(state) => state.into(),
            Fault::IncompatibleRequestType | Fault::IncompatibleResponseType => {
                RequestResponseCreateError::AlreadyExists
            }
        }
    }
}

impl Pattern for RequestResponseDemand {
    type Fault = Fault;
    type OpenError = RequestResponseOpenError;
    type CreateError = RequestResponseCreateError;

    const PREFIX: u8 = b'r';

    fn adjust(&mut self) {
        let settings = &mut self.settings;
        for number in [
            &mut settings.max_active_requests_per_client,
            &mut settings.max_loaned_requests,
            &mut settings.max_borrowed_responses_per_pending_response,
            &mut settings.max_response_buffer_size,
            &mut settings.max_servers,
            &mut settings.max_clients,
            &mut settings.max_nodes,
        ] {
            *number = (*number).max(1);
        }
    }

    fn misfit(&self, existing: &MessagingPattern) -> Option<Fault> {
        match existing {
            MessagingPattern::RequestResponse(_, messages) => {
                if !self.messages.request.is_compatible_to(&messages.request) {
                    Some(Fault::IncompatibleRequestType)
                } else if !self.messages.response.is_compatible_to(&messages.response) {
                    Some(Fault::IncompatibleResponseType)
                } else {
                    None
                }
            }
            _ => Some(ServiceState::IncompatibleMessagingPattern.into()),
        }
    }

    fn verify(&self, existing: &MessagingPattern) -> Result<(), RequestResponseOpenError> {
        use RequestResponseOpenError as Error;
        let MessagingPattern::RequestResponse(offered, _) = existing else {
            return Ok(());
        };
        let (settings, marks) = (&self.settings, &self.marks);
        need_same(
            marks.enable_safe_overflow_for_requests,
            offered.enable_safe_overflow_for_requests,
            settings.enable_safe_overflow_for_requests,
            Error::IncompatibleOverflowBehaviorForRequests,
        )?;
        need_same(
            marks.enable_safe_overflow_for_responses,
            offered.enable_safe_overflow_for_responses,
            settings.enable_safe_overflow_for_responses,
            Error::IncompatibleOverflowBehaviorForResponses,
        )?;
        need_same(
            marks.enable_fire_and_forget_requests,
            offered.enable_fire_and_forget_requests,
            settings.enable_fire_and_forget_requests,
            Error::IncompatibleBehaviorForFireAndForgetRequests,
        )?;
        need_at_least(
            marks.max_active_requests_per_client,
            offered.max_active_requests_per_client,
            settings.max_active_requests_per_client,
            Error::DoesNotSupportRequestedAmountOfActiveRequestsPerClient,
        )?;
        need_at_least(
            marks.max_loaned_requests,
            offered.max_loaned_requests,
            settings.max_loaned_requests,
            Error::DoesNotSupportRequestedAmountOfClientRequestLoans,
        )?;
        need_at_least(
            marks.max_borrowed_responses_per_pending_response,
            offered.max_borrowed_responses_per_pending_response,
            settings.max_borrowed_responses_per_pending_response,
            Error::DoesNotSupportRequestedAmountOfBorrowedResponsesPerPendingResponse,
        )?;
        need_at_least(
            marks.max_response_buffer_size,
            offered.max_response_buffer_size,
            settings.max_response_buffer_size,
            Error::DoesNotSupportRequestedResponseBufferSize,
        )?;
        need_at_least(
            marks.max_servers,
            offered.max_servers,
            settings.max_servers,
            Error::DoesNotSupportRequestedAmountOfServers,
        )?;
        need_at_least(
            marks.max_clients,
            offered.max_clients,
            settings.max_clients,
            Error::DoesNotSupportRequestedAmountOfClients,
        )?;
        need_at_least(
            marks.max_nodes,
            offered.max_nodes,
            settings.max_nodes,
            Error::DoesNotSupportRequestedAmountOfNodes,
        )
    }

    fn settings_refusal(&self) -> Option<RequestResponseCreateError> {
        None
    }

    fn needs_clock(&self) -> bool {
        false
    }

    fn into_published(self, _now: Duration) -> MessagingPattern {
        MessagingPattern::RequestResponse(self.settings, self.messages)
    }

    fn try_clone(&self) -> Result<RequestResponseDemand, TryReserveError> {
        Ok(RequestResponseDemand {
            messages: Box::new(Messages {
                request: self.messages.request.try_clone()?,
                response: self.messages.response.try_clone()?,
            }),
            ..*self
        })
    }
}
