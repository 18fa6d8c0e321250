//! The listed operations and the providers that have them: document 01, "Operations and their
//! fields", and document 02, "Checking signatures".

/// A listed operation; `number` gives the papers' number.
#[derive(Clone, Copy, Debug, PartialEq, Eq, PartialOrd, Ord, Hash)]
#[repr(u16)]
#[allow(missing_docs)] // The names are those of documents 01 and 02.
pub enum Opcode {
    Ping = 1,
    PsaDestroyKey = 3,
    PsaAsymmetricVerify = 5,
    PsaImportKey = 6,
    PsaExportPublicKey = 7,
    ListProviders = 8,
    ListOpcodes = 9,
}

impl Opcode {
    /// Every listed opcode, ascending.
    pub const ALL: [Opcode; 7] = [
        Opcode::Ping,
        Opcode::PsaDestroyKey,
        Opcode::PsaAsymmetricVerify,
        Opcode::PsaImportKey,
        Opcode::PsaExportPublicKey,
        Opcode::ListProviders,
        Opcode::ListOpcodes,
    ];

    /// The number on the wire.
    pub fn number(self) -> u16 {
        self as u16
    }

    /// The opcode of this number, as a list of opcodes has it, if it is listed.
    ///
    /// ```
    /// use razidkot_client::Opcode;
    ///
    /// assert_eq!(Opcode::from_number(7), Some(Opcode::PsaExportPublicKey));
    /// assert_eq!(Opcode::from_number(2), None);
    /// ```
    pub fn from_number(number: u32) -> Option<Opcode> {
        Self::ALL
            .into_iter()
            .find(|opcode| u32::from(opcode.number()) == number)
    }

    /// Whose operation it is.
    pub fn provider(self) -> Provider {
        match self {
            Opcode::Ping | Opcode::ListProviders | Opcode::ListOpcodes => Provider::Core,
            Opcode::PsaDestroyKey
            | Opcode::PsaAsymmetricVerify
            | Opcode::PsaImportKey
            | Opcode::PsaExportPublicKey => Provider::Keystore,
        }
    }
}

/// A provider; `number` gives document 01's number.
#[derive(Clone, Copy, Debug, PartialEq, Eq, PartialOrd, Ord, Hash)]
#[repr(u32)]
pub enum Provider {
    /// What can be asked of the service itself.
    Core = 0,
    /// What can be done with keys.
    Keystore = 1,
}

impl Provider {
    /// Both providers, ascending.
    pub const ALL: [Provider; 2] = [Provider::Core, Provider::Keystore];

    /// The number, as a list of providers has it.
    pub fn number(self) -> u32 {
        self as u32
    }

    /// The provider of this number, if there is one.
    pub fn from_number(number: u32) -> Option<Provider> {
        Self::ALL
            .into_iter()
            .find(|provider| provider.number() == number)
    }
}
