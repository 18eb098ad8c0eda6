//! The original crate, unchanged. It stands at the root, since it names `crate::ScreenPoint`.
#![allow(dead_code)]

include!(env!("ORIGINAL_FILE"));

/// What the file mentions of a crate that reads configurations. No key event comes by it.
mod wezterm_dynamic {
    pub use derives::{FromDynamic, ToDynamic};

    pub enum Value {
        Null,
        String(String),
    }

    impl Value {
        pub fn variant_name(&self) -> &str {
            match self {
                Value::Null => "Null",
                Value::String(_) => "String",
            }
        }
    }

    pub enum Error {
        InvalidVariantForType {
            variant_name: String,
            type_name: &'static str,
            possible: &'static [&'static str],
        },
    }

    pub struct FromDynamicOptions;

    pub trait FromDynamic: Sized {
        fn from_dynamic(value: &Value, options: FromDynamicOptions) -> Result<Self, Error>;
    }

    pub trait ToDynamic {
        fn to_dynamic(&self) -> Value;
    }
}
