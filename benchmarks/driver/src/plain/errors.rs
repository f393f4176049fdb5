//! Why calls are refused. What only other storages than a table answer is left out.

/// What a look finds wrong, whatever the pattern.
#[derive(Clone, Copy, Debug, PartialEq, Eq)]
pub enum ServiceState {
    IncompatibleMessagingPattern,
    HangsInCreation,
    Corrupted,
    OutOfMemory,
}

/// The refusals of an open that every pattern has, beside those of a look and of its settings.
#[derive(Clone, Copy, Debug, PartialEq, Eq)]
pub enum OpenRefusal {
    DoesNotExist,
    IncompatibleAttributes,
    ServiceInCorruptedState,
    InternalFailure,
    ExceedsMaxNumberOfNodes,
    IsMarkedForDestruction,
    OutOfMemory,
}

/// The refusals of a create that every pattern has, beside those of a look.
#[derive(Clone, Copy, Debug, PartialEq, Eq)]
pub enum CreateRefusal {
    ServiceInCorruptedState,
    InternalFailure,
    IsBeingCreatedByAnotherInstance,
    AlreadyExists,
    OutOfMemory,
}

/// The two enums of a pattern: its own refusals, and those that every pattern has.
macro_rules! errors_of_pattern {
    ($open:ident: $($of_open:ident)*; $create:ident: $($of_create:ident)*;) => {
        #[derive(Clone, Copy, Debug, PartialEq, Eq)]
        pub enum $open {
            DoesNotExist,
            IncompatibleMessagingPattern,
            IncompatibleAttributes,
            ServiceInCorruptedState,
            InternalFailure,
            HangsInCreation,
            ExceedsMaxNumberOfNodes,
            IsMarkedForDestruction,
            OutOfMemory,
            $($of_open,)*
        }

        #[derive(Clone, Copy, Debug, PartialEq, Eq)]
        pub enum $create {
            ServiceInCorruptedState,
            InternalFailure,
            IsBeingCreatedByAnotherInstance,
            AlreadyExists,
            HangsInCreation,
            OutOfMemory,
            $($of_create,)*
        }

        impl From<ServiceState> for $open {
            fn from(state: ServiceState) -> $open {
                match state {
                    ServiceState::IncompatibleMessagingPattern => {
                        $open::IncompatibleMessagingPattern
                    }
                    ServiceState::HangsInCreation => $open::HangsInCreation,
                    ServiceState::Corrupted => $open::ServiceInCorruptedState,
                    ServiceState::OutOfMemory => $open::OutOfMemory,
                }
            }
        }

        impl From<ServiceState> for $create {
            fn from(state: ServiceState) -> $create {
                match state {
                    ServiceState::IncompatibleMessagingPattern => $create::AlreadyExists,
                    ServiceState::HangsInCreation => $create::HangsInCreation,
                    ServiceState::Corrupted => $create::ServiceInCorruptedState,
                    ServiceState::OutOfMemory => $create::OutOfMemory,
                }
            }
        }

        impl From<OpenRefusal> for $open {
            fn from(refusal: OpenRefusal) -> $open {
                match refusal {
                    OpenRefusal::DoesNotExist => $open::DoesNotExist,
                    OpenRefusal::IncompatibleAttributes => $open::IncompatibleAttributes,
                    OpenRefusal::ServiceInCorruptedState => $open::ServiceInCorruptedState,
                    OpenRefusal::InternalFailure => $open::InternalFailure,
                    OpenRefusal::ExceedsMaxNumberOfNodes => $open::ExceedsMaxNumberOfNodes,
                    OpenRefusal::IsMarkedForDestruction => $open::IsMarkedForDestruction,
                    OpenRefusal::OutOfMemory => $open::OutOfMemory,
                }
            }
        }

        impl From<CreateRefusal> for $create {
            fn from(refusal: CreateRefusal) -> $create {
                match refusal {
                    CreateRefusal::ServiceInCorruptedState => $create::ServiceInCorruptedState,
                    CreateRefusal::InternalFailure => $create::InternalFailure,
                    CreateRefusal::IsBeingCreatedByAnotherInstance => {
                        $create::IsBeingCreatedByAnotherInstance
                    }
                    CreateRefusal::AlreadyExists => $create::AlreadyExists,
                    CreateRefusal::OutOfMemory => $create::OutOfMemory,
                }
            }
        }
    };
}

errors_of_pattern! {
    EventOpenError:
        DoesNotSupportRequestedAmountOfNotifiers DoesNotSupportRequestedAmountOfListeners
        DoesNotSupportRequestedMaxEventId DoesNotSupportRequestedAmountOfNodes
        IncompatibleNotifierCreatedEvent IncompatibleNotifierDroppedEvent
        IncompatibleNotifierDeadEvent IncompatibleDeadline;
    EventCreateError:;
}

errors_of_pattern! {
    PublishSubscribeOpenError:
        IncompatibleTypes DoesNotSupportRequestedAmountOfPublishers
        DoesNotSupportRequestedAmountOfSubscribers DoesNotSupportRequestedMinBufferSize
        DoesNotSupportRequestedMinHistorySize DoesNotSupportRequestedMinSubscriberBorrowedSamples
        IncompatibleOverflowBehavior DoesNotSupportRequestedAmountOfNodes;
    PublishSubscribeCreateError: SubscriberBufferMustBeLargerThanHistorySize;
}

errors_of_pattern! {
    RequestResponseOpenError:
        IncompatibleRequestType IncompatibleResponseType IncompatibleOverflowBehaviorForRequests
        IncompatibleOverflowBehaviorForResponses IncompatibleBehaviorForFireAndForgetRequests
        DoesNotSupportRequestedAmountOfActiveRequestsPerClient
        DoesNotSupportRequestedAmountOfClientRequestLoans
        DoesNotSupportRequestedAmountOfBorrowedResponsesPerPendingResponse
        DoesNotSupportRequestedResponseBufferSize DoesNotSupportRequestedAmountOfServers
        DoesNotSupportRequestedAmountOfClients DoesNotSupportRequestedAmountOfNodes;
    RequestResponseCreateError:;
}

/// Why an open or create is refused.
#[derive(Clone, Copy, Debug, PartialEq, Eq)]
pub enum OpenOrCreateError<O, C> {
    Open(O),
    Create(C),
    SystemInFlux,
}
