//! Stands for the crate `dataflow`, so that the original's lib.rs and record.rs are compiled unchanged: the names
//! that they mention, without any function. The comparison uses none of them.

macro_rules! error {
    ($name:ident) => {
        #[derive(Debug)]
        pub struct $name;

        impl std::fmt::Display for $name {
            fn fmt(&self, f: &mut std::fmt::Formatter<'_>) -> std::fmt::Result {
                f.write_str(stringify!($name))
            }
        }

        impl std::error::Error for $name {}
    };
}

pub mod lifter {
    error!(LiftError);
}

pub mod error {
    error!(DataflowError);
}

pub mod architecture {
    #![allow(non_camel_case_types)]

    macro_rules! architectures {
        ($($name:ident)*) => {
            $(pub struct $name;)*

            pub enum Architecture {
                $($name($name),)*
                Other,
            }
        };
    }

    architectures!(X86 X86_64 X86_64Compat32 PPCBE32 ARM32 AARCH64 M68K);
}
