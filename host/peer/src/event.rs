//! What reaches the agent: calls, reports and images.

/// One event.
#[derive(Clone, Copy, PartialEq, Eq, Debug)]
pub enum Event {
    /// A CPU calls.
    Call(Call),
    /// The platform reports on a prime job.
    Prime(Report),
    /// The platform reports on an activation job.
    Activate(Report),
    /// A new image arrives.
    Image(Image),
}

/// A call with its registers.
#[derive(Clone, Copy, PartialEq, Eq, Debug, Default)]
pub struct Call {
    /// The calling CPU.
    pub cpu: u64,
    /// The function number, in the low 32 bits.
    pub x0: u64,
    /// First argument.
    pub x1: u64,
    /// Second argument.
    pub x2: u64,
    /// Third argument.
    pub x3: u64,
    /// Fourth argument.
    pub x4: u64,
}

/// The result of a job.
#[derive(Clone, Copy, PartialEq, Eq, Debug, Default)]
pub struct Report {
    /// The job's component.
    pub component: u64,
    /// What became of the job: 0, 1 for again, 12 for a reset, or a status without its sign.
    pub code: u64,
}

/// The arrival of an image.
#[derive(Clone, Copy, PartialEq, Eq, Debug, Default)]
pub struct Image {
    /// The image's component.
    pub component: u64,
    /// The image's security version.
    pub version: u32,
}

/// The nine functions a CPU can call.
#[derive(Clone, Copy, PartialEq, Eq, Debug)]
#[repr(u32)]
pub enum Function {
    /// LFA_VERSION.
    Version = 0xC400_02E0,
    /// LFA_FEATURES.
    Features = 0xC400_02E1,
    /// LFA_GET_INFO.
    GetInfo = 0xC400_02E2,
    /// LFA_GET_INVENTORY.
    GetInventory = 0xC400_02E3,
    /// LFA_PRIME.
    Prime = 0xC400_02E4,
    /// LFA_ACTIVATE.
    Activate = 0xC400_02E5,
    /// LFA_CANCEL.
    Cancel = 0xC400_02E6,
    /// PSCI CPU_OFF.
    CpuOff = 0x8400_0002,
    /// PSCI CPU_ON.
    CpuOn = 0xC400_0003,
}

impl Function {
    /// The function that X0 names in its low 32 bits, if it names one.
    #[inline]
    pub const fn from_x0(x0: u64) -> Option<Self> {
        Some(match x0 as u32 {
            0xC400_02E0 => Self::Version,
            0xC400_02E1 => Self::Features,
            0xC400_02E2 => Self::GetInfo,
            0xC400_02E3 => Self::GetInventory,
            0xC400_02E4 => Self::Prime,
            0xC400_02E5 => Self::Activate,
            0xC400_02E6 => Self::Cancel,
            0x8400_0002 => Self::CpuOff,
            0xC400_0003 => Self::CpuOn,
            _ => return None,
        })
    }

    /// The function's number.
    pub const fn number(self) -> u64 {
        self as u64
    }
}

/// The code of an activation done by reset.
pub(crate) const BY_RESET: u64 = 12;

/// The codes a prime report may carry, as a bit set.
pub(crate) const PRIME_CODES: u64 = codes(&[0, 1, 3, 4, 6, 11]);

/// The codes some activate report may carry, as a bit set.
pub(crate) const ACTIVATE_CODES: u64 = codes(&[0, 1, 2, 3, 4, 5, 6, 9, 11, BY_RESET]);

/// Whether a bit set of codes has this one.
#[inline]
pub(crate) const fn has_code(set: u64, code: u64) -> bool {
    code < 64 && set >> code & 1 == 1
}

const fn codes(list: &[u64]) -> u64 {
    let mut set = 0;
    let mut i = 0;
    while i < list.len() {
        set |= 1 << list[i];
        i += 1;
    }
    set
}
