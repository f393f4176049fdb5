//! Why a call isn't done.
use crate::raw;
use std::ffi::CStr;
use std::fmt;

/// A call that wasn't carried out.
#[derive(Clone, Debug, PartialEq, Eq)]
pub struct Failure {
    pub code: Code,
    /// What is wrong with the log or the program, and the names of the services that were held where the session was lost, as
    /// leaves with blanks between them; else empty.
    pub message: String,
}

impl From<u32> for Failure {
    fn from(code: u32) -> Failure {
        Failure { code: Code::of(code), message: String::new() }
    }
}

impl fmt::Display for Failure {
    fn fmt(&self, f: &mut fmt::Formatter<'_>) -> fmt::Result {
        // SAFETY: the text is static, and ends with a 0.
        let text = unsafe { CStr::from_ptr(raw::wulameron_code_text(self.code as u32)) }.to_string_lossy();
        let text = if self.code == Code::NoFreeSlot { "all 64 slots are taken" } else { &text };
        write!(f, "{text}{}{}", if self.message.is_empty() { "" } else { ": " }, self.message)
    }
}

impl std::error::Error for Failure {}

macro_rules! codes {
    ($($Code:ident $number:literal)*) => {
        /// Why a call wasn't carried out: a code of wulameron.h.
        #[derive(Clone, Copy, Debug, PartialEq, Eq)]
        #[non_exhaustive]
        pub enum Code {
            $($Code = $number,)*
            /// A number that isn't known here.
            Unknown = 0,
        }

        impl Code {
            fn of(number: u32) -> Code { match number { $($number => Code::$Code,)* _ => Code::Unknown } }
        }
    };
}

codes! {
    Null 1 Busy 2 VersionDiffers 3 OutOfMemory 4 NotUtf8 6 BadName 7 BadValue 8 BadType 9 BadAttribute 10 TooMany 11
    UnknownSetting 12 UnknownPattern 13 UnknownCall 14 NoRequest 15 NoSuchSlot 16 SlotInUse 17 SlotEmpty 18
    NoSuchItem 19 NotClosed 21 OtherNode 25 Log 26 Ended 27 NoProgram 28 NodeInUse 29 OnlyOverLog 30 BadLine 31
    NodeAlive 32 Lost 33 NoFreeSlot 100
}

/// The errors of a call, by its pattern and by what it is.
pub trait Refusal: Clone + PartialEq + From<Failure> {
    /// Each refusal with its number in wulameron.h.
    fn numbered() -> Vec<(u32, Self)>;

    fn of(number: u32) -> Self {
        let mut values = Self::numbered().into_iter();
        values.find(|value| value.0 == number).map_or_else(|| Failure::from(number).into(), |value| value.1)
    }

    /// Its number. `None` where the call wasn't carried out, and then the texts are empty.
    fn number(&self) -> Option<u32> {
        Self::numbered().iter().find(|value| value.1 == *self).map(|value| value.0)
    }

    /// Its name, as `EventOpenError::DoesNotExist`, when it comes, and what can be done.
    fn texts(&self) -> [String; 3] {
        type Text = unsafe extern "C" fn(u32, *mut u8, usize, *mut usize) -> u32;
        let calls: [Text; 3] =
            [raw::wulameron_refusal_name, raw::wulameron_refusal_text, raw::wulameron_refusal_advice];
        calls.map(|call| {
            // SAFETY: the place has as many bytes as it is given.
            let text = |number| raw::bytes(|output, size, length| unsafe { call(number, output, size, length) }).ok();
            String::from_utf8_lossy(&self.number().and_then(text).unwrap_or_default()).into_owned()
        })
    }
}

/// The enums of refusals with what their numbers begin at: of an open or a create the values in their order; of an open
/// or create the enums of both, and what its own numbers begin at where these begin.
macro_rules! refusals {
    ($Error:ident $at:literal: $($Value:ident)*; $($rest:tt)*) => {
        refusals! { @enum $Error $($Value)*; ($at + 1..).zip([$($Error::$Value),*]) }
        refusals! { $($rest)* }
    };
    ($Error:ident $at:literal: $Open:ident $open:literal, $Create:ident $create:literal; $($rest:tt)*) => {
        refusals! { @enum $Error $Open($Open) $Create($Create) SystemInFlux;
            $Open::numbered().into_iter().map(|value| (value.0 - $open + $at, $Error::$Open(value.1)))
            .chain($Create::numbered().into_iter().map(|value| (value.0 - $create + $at, $Error::$Create(value.1))))
            .chain([($at + 999, $Error::SystemInFlux)]) }
        refusals! { $($rest)* }
    };
    (@enum $Error:ident $($Value:ident $(($Inner:ident))?)*; $numbered:expr) => {
        #[doc = concat!("Why a call is refused, by the values of ", stringify!($Error), " of wulameron.h.")]
        #[derive(Clone, Debug, PartialEq, Eq)]
        #[non_exhaustive]
        #[must_use]
        pub enum $Error {
            $($Value $(($Inner))?,)*
            /// The call wasn't carried out.
            NotDone(Failure),
        }

        impl Refusal for $Error {
            fn numbered() -> Vec<(u32, $Error)> { $numbered.collect() }
        }

        impl From<Failure> for $Error {
            fn from(failure: Failure) -> $Error { $Error::NotDone(failure) }
        }

        impl std::error::Error for $Error {}

        impl fmt::Display for $Error {
            fn fmt(&self, f: &mut fmt::Formatter<'_>) -> fmt::Result {
                if let $Error::NotDone(failure) = self { return failure.fmt(f) }
                let [name, when, what] = self.texts();
                write!(f, "{name}: {when}; {what}")
            }
        }
    };
    () => {};
}

refusals! {
    EventOpenError 1000: DoesNotExist InsufficientPermissions ServiceInCorruptedState IncompatibleMessagingPattern
        IncompatibleAttributes InternalFailure IncompatibleDeadline IncompatibleNotifierCreatedEvent
        IncompatibleNotifierDroppedEvent IncompatibleNotifierDeadEvent HangsInCreation
        DoesNotSupportRequestedAmountOfNotifiers DoesNotSupportRequestedAmountOfListeners
        DoesNotSupportRequestedMaxEventId DoesNotSupportRequestedAmountOfNodes ExceedsMaxNumberOfNodes
        IsMarkedForDestruction OutOfMemory;
    EventCreateError 2000: ServiceInCorruptedState InternalFailure IsBeingCreatedByAnotherInstance AlreadyExists
        HangsInCreation InsufficientPermissions OutOfMemory;
    EventOpenOrCreateError 3000: EventOpenError 1000, EventCreateError 1500;
    PublishSubscribeOpenError 4000: DoesNotExist InternalFailure IncompatibleTypes IncompatibleMessagingPattern
        IncompatibleAttributes DoesNotSupportRequestedMinBufferSize DoesNotSupportRequestedMinHistorySize
        DoesNotSupportRequestedMinSubscriberBorrowedSamples DoesNotSupportRequestedAmountOfPublishers
        DoesNotSupportRequestedAmountOfSubscribers DoesNotSupportRequestedAmountOfNodes IncompatibleOverflowBehavior
        InsufficientPermissions ServiceInCorruptedState HangsInCreation ExceedsMaxNumberOfNodes IsMarkedForDestruction
        OutOfMemory;
    PublishSubscribeCreateError 5000: ServiceInCorruptedState SubscriberBufferMustBeLargerThanHistorySize AlreadyExists
        InsufficientPermissions InternalFailure IsBeingCreatedByAnotherInstance HangsInCreation OutOfMemory;
    PublishSubscribeOpenOrCreateError 6000: PublishSubscribeOpenError 4000, PublishSubscribeCreateError 4500;
    RequestResponseOpenError 7000: DoesNotExist DoesNotSupportRequestedAmountOfClientRequestLoans
        DoesNotSupportRequestedAmountOfActiveRequestsPerClient DoesNotSupportRequestedResponseBufferSize
        DoesNotSupportRequestedAmountOfServers DoesNotSupportRequestedAmountOfClients
        DoesNotSupportRequestedAmountOfNodes DoesNotSupportRequestedAmountOfBorrowedResponsesPerPendingResponse
        ExceedsMaxNumberOfNodes HangsInCreation IncompatibleRequestType IncompatibleResponseType IncompatibleAttributes
        IncompatibleMessagingPattern IncompatibleOverflowBehaviorForRequests IncompatibleOverflowBehaviorForResponses
        IncompatibleBehaviorForFireAndForgetRequests InsufficientPermissions InternalFailure IsMarkedForDestruction
        ServiceInCorruptedState OutOfMemory;
    RequestResponseCreateError 8000: AlreadyExists InternalFailure IsBeingCreatedByAnotherInstance
        InsufficientPermissions HangsInCreation ServiceInCorruptedState OutOfMemory;
    RequestResponseOpenOrCreateError 9000: RequestResponseOpenError 7000, RequestResponseCreateError 7500;
}
