//! The two providers and the opcodes of each.
//! Document 01, "Operations and their fields"; document 02, "Checking signatures".

#[derive(Clone, Copy, Debug, PartialEq, Eq)]
#[repr(u8)]
pub enum Provider {
    Core = 0,
    Keystore = 1,
}

impl Provider {
    pub const ALL: [Provider; 2] = [Provider::Core, Provider::Keystore];

    pub fn from_number(number: u32) -> Option<Provider> {
        Self::ALL
            .into_iter()
            .find(|&provider| provider.number() == number)
    }

    pub fn number(self) -> u32 {
        self as u32
    }
}

#[derive(Clone, Copy, Debug, PartialEq, Eq)]
#[repr(u16)]
pub enum CoreOpcode {
    Ping = 1,
    ListProviders = 8,
    ListOpcodes = 9,
}

/// PsaDestroyKey, PsaAsymmetricVerify, PsaImportKey and PsaExportPublicKey in 002's names.
#[derive(Clone, Copy, Debug, PartialEq, Eq)]
#[repr(u16)]
pub enum KeystoreOpcode {
    Destroy = 3,
    Verify = 5,
    Import = 6,
    Export = 7,
}

impl CoreOpcode {
    /// Ascending, as ListOpcodes writes them.
    pub const ALL: [CoreOpcode; 3] = [Self::Ping, Self::ListProviders, Self::ListOpcodes];
}

impl KeystoreOpcode {
    /// Ascending, as ListOpcodes writes them.
    pub const ALL: [KeystoreOpcode; 4] = [Self::Destroy, Self::Verify, Self::Import, Self::Export];
}

/// A listed opcode, under the provider it belongs to.
#[derive(Clone, Copy, Debug, PartialEq, Eq)]
pub enum Opcode {
    Core(CoreOpcode),
    Keystore(KeystoreOpcode),
}

impl Opcode {
    pub fn from_number(number: u16) -> Option<Opcode> {
        let core = CoreOpcode::ALL.into_iter().map(Opcode::Core);
        let keystore = KeystoreOpcode::ALL.into_iter().map(Opcode::Keystore);
        core.chain(keystore)
            .find(|opcode| opcode.number() == number)
    }

    pub fn number(self) -> u16 {
        match self {
            Opcode::Core(opcode) => opcode as u16,
            Opcode::Keystore(opcode) => opcode as u16,
        }
    }

    pub fn provider(self) -> Provider {
        match self {
            Opcode::Core(_) => Provider::Core,
            Opcode::Keystore(_) => Provider::Keystore,
        }
    }
}
