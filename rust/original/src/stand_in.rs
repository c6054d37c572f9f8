// Included into the module `wasm`: stand-ins for modules of the original that `lower_expression` never enters.

/// For `super::intrinsics`: statements use it, expressions do not.
pub mod intrinsics {
    #[derive(Clone, Copy, Debug, PartialEq, Eq)]
    pub enum Intrinsic {}

    #[derive(Clone, Copy)]
    pub enum AbiType {
        U8,
        ConstU8Pointer,
        MutU8Pointer,
    }

    pub struct Parameter {
        pub ty: AbiType,
    }

    pub struct Definition {
        pub parameters: Vec<Parameter>,
        pub result: Option<AbiType>,
    }

    impl Intrinsic {
        pub fn definition(self) -> Option<Definition> {
            match self {}
        }

        pub fn display_name(self) -> &'static str {
            match self {}
        }
    }
}

/// For `super::hir_validate`: `lower` uses it, which is not called here.
pub mod hir_validate {
    pub fn validate(_: &super::hir::Program) -> Result<(), String> {
        Err("not part of this build".into())
    }
}

/// For `super::lir_validate`, likewise.
pub mod lir_validate {
    pub fn validate_virtual(_: &super::lir::VirtualProgram) -> Result<(), String> {
        Err("not part of this build".into())
    }
}

/// For `super::target`: only placements after allocation use it.
pub mod target {
    pub const XRAM_BANK_LAST_OFFSET: u8 = 0xff;

    pub fn xram_offset_is_addressable(_: u8) -> bool {
        false
    }
}
