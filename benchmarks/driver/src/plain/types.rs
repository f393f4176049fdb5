//! Types of messages, and which messages are compatible.

use super::copy_text;
use std::collections::TryReserveError;

pub const MAX_TYPE_NAME_LENGTH: usize = 256;

/// A power of two.
#[derive(Clone, Copy, Debug, PartialEq, Eq, PartialOrd, Ord)]
pub struct Alignment(u64);

impl Alignment {
    pub fn new(value: u64) -> Option<Alignment> {
        value.is_power_of_two().then_some(Alignment(value))
    }

    pub fn value(self) -> u64 {
        self.0
    }
}

/// Whether a message holds one value of its type, or a number of them.
#[derive(Clone, Copy, Debug, PartialEq, Eq)]
pub enum TypeVariant {
    FixedSize,
    Dynamic,
}

/// Why details aren't those of a type, in the order in which it is tested.
#[derive(Clone, Copy, Debug, PartialEq, Eq)]
pub enum TypeDetailError {
    NameLength,
    Alignment,
    OutOfMemory,
}

/// What is told of a type.
#[derive(Debug, PartialEq, Eq)]
pub struct TypeDetail {
    type_name: Box<str>,
    size: u64,
    alignment: Alignment,
    variant: TypeVariant,
}

/// What a type says of itself.
pub struct KnownType {
    variant: TypeVariant,
    type_name: &'static str,
    size: u64,
    alignment: Alignment,
}

const fn header(type_name: &'static str) -> KnownType {
    KnownType {
        variant: TypeVariant::FixedSize,
        type_name,
        size: 32,
        alignment: Alignment(8),
    }
}

pub const PUBLISH_SUBSCRIBE_HEADER: KnownType = header("publish_subscribe::Header");
pub const REQUEST_HEADER: KnownType = header("request_response::RequestHeader");
pub const RESPONSE_HEADER: KnownType = header("request_response::ResponseHeader");

/// Stands in place of a user header.
const CUSTOM_HEADER: KnownType = KnownType {
    variant: TypeVariant::FixedSize,
    type_name: "CustomHeaderMarker",
    size: 0,
    alignment: Alignment(1),
};

/// A number of them stands in place of a payload.
const CUSTOM_PAYLOAD: KnownType = KnownType {
    variant: TypeVariant::Dynamic,
    type_name: "CustomPayloadMarker",
    size: 1,
    alignment: Alignment(1),
};

impl KnownType {
    fn detail(&self) -> Result<TypeDetail, TryReserveError> {
        Ok(TypeDetail {
            type_name: copy_text(self.type_name)?,
            size: self.size,
            alignment: self.alignment,
            variant: self.variant,
        })
    }
}

impl TypeDetail {
    pub fn new(
        variant: TypeVariant,
        type_name: &str,
        size: u64,
        alignment: u64,
    ) -> Result<TypeDetail, TypeDetailError> {
        if type_name.is_empty() || type_name.len() > MAX_TYPE_NAME_LENGTH {
            return Err(TypeDetailError::NameLength);
        }
        let alignment = Alignment::new(alignment).ok_or(TypeDetailError::Alignment)?;
        let type_name = copy_text(type_name).map_err(|_| TypeDetailError::OutOfMemory)?;
        Ok(TypeDetail {
            type_name,
            size,
            alignment,
            variant,
        })
    }

    pub fn variant(&self) -> TypeVariant {
        self.variant
    }

    pub fn type_name(&self) -> &str {
        &self.type_name
    }

    pub fn size(&self) -> u64 {
        self.size
    }

    pub fn alignment(&self) -> Alignment {
        self.alignment
    }

    fn try_clone(&self) -> Result<TypeDetail, TryReserveError> {
        Ok(TypeDetail {
            type_name: copy_text(&self.type_name)?,
            ..*self
        })
    }

    /// Whether this is the other's type, aligned at most as far.
    fn fits(&self, other: &TypeDetail) -> bool {
        self.variant == other.variant
            && self.size == other.size
            && self.alignment <= other.alignment
            && self.type_name == other.type_name
    }
}

/// The types of a message.
#[derive(Debug, PartialEq, Eq)]
pub struct MessageTypeDetails {
    pub header: TypeDetail,
    pub user_header: TypeDetail,
    pub payload: TypeDetail,
}

impl MessageTypeDetails {
    /// Whether messages of these types may be sent where those of the other are.
    pub fn is_compatible_to(&self, other: &MessageTypeDetails) -> bool {
        self.header == other.header
            && self.user_header.fits(&other.user_header)
            && self.payload.fits(&other.payload)
    }

    pub fn try_clone(&self) -> Result<MessageTypeDetails, TryReserveError> {
        Ok(MessageTypeDetails {
            header: self.header.try_clone()?,
            user_header: self.user_header.try_clone()?,
            payload: self.payload.try_clone()?,
        })
    }
}

/// What is told in place of a message's own types, and how far its payload is to be aligned.
#[derive(Debug, Default)]
pub struct RequestedTypes {
    pub user_header: Option<TypeDetail>,
    pub payload: Option<TypeDetail>,
    pub alignment: Option<Alignment>,
}

impl RequestedTypes {
    /// The types of a message with this header.
    pub fn prepare(self, header: &KnownType) -> Result<MessageTypeDetails, TryReserveError> {
        let user_header = match self.user_header {
            Some(detail) => detail,
            None => CUSTOM_HEADER.detail()?,
        };
        let mut payload = match self.payload {
            Some(detail) => detail,
            None => CUSTOM_PAYLOAD.detail()?,
        };
        if let Some(asked) = self.alignment {
            payload.alignment = payload.alignment.max(asked);
        }
        Ok(MessageTypeDetails {
            header: header.detail()?,
            user_header,
            payload,
        })
    }
}
