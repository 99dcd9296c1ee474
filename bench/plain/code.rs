//! Results of OpenXR, calls by name, and replies.

/// What a call answers, named for the results of OpenXR. Only those that the calls of a load may answer.
#[derive(Clone, Copy, PartialEq, Eq)]
pub enum Code {
    Success,
    TimeoutExpired,
    SessionLossPending,
    FrameDiscarded,
    ValidationFailure,
    ApiVersionUnsupported,
    LimitReached,
    HandleInvalid,
    SessionRunning,
    SessionNotRunning,
    SessionLost,
    SystemInvalid,
    LayerInvalid,
    LayerLimitExceeded,
    SwapchainRectInvalid,
    SwapchainFormatUnsupported,
    SessionNotReady,
    TimeInvalid,
    ReferenceSpaceUnsupported,
    FormFactorUnsupported,
    CallOrderInvalid,
    PoseInvalid,
    ViewConfigurationTypeUnsupported,
    EnvironmentBlendModeUnsupported,
}

/// The names of the results, in the order of `Code`.
pub const CODE_NAMES: [&str; 24] = [
    "XR_SUCCESS",
    "XR_TIMEOUT_EXPIRED",
    "XR_SESSION_LOSS_PENDING",
    "XR_FRAME_DISCARDED",
    "XR_ERROR_VALIDATION_FAILURE",
    "XR_ERROR_API_VERSION_UNSUPPORTED",
    "XR_ERROR_LIMIT_REACHED",
    "XR_ERROR_HANDLE_INVALID",
    "XR_ERROR_SESSION_RUNNING",
    "XR_ERROR_SESSION_NOT_RUNNING",
    "XR_ERROR_SESSION_LOST",
    "XR_ERROR_SYSTEM_INVALID",
    "XR_ERROR_LAYER_INVALID",
    "XR_ERROR_LAYER_LIMIT_EXCEEDED",
    "XR_ERROR_SWAPCHAIN_RECT_INVALID",
    "XR_ERROR_SWAPCHAIN_FORMAT_UNSUPPORTED",
    "XR_ERROR_SESSION_NOT_READY",
    "XR_ERROR_TIME_INVALID",
    "XR_ERROR_REFERENCE_SPACE_UNSUPPORTED",
    "XR_ERROR_FORM_FACTOR_UNSUPPORTED",
    "XR_ERROR_CALL_ORDER_INVALID",
    "XR_ERROR_POSE_INVALID",
    "XR_ERROR_VIEW_CONFIGURATION_TYPE_UNSUPPORTED",
    "XR_ERROR_ENVIRONMENT_BLEND_MODE_UNSUPPORTED",
];

#[derive(Clone, Copy)]
pub enum CallName {
    CreateInstance,
    GetSystem,
    CreateSession,
    CreateReferenceSpace,
    CreateSwapchain,
    BeginSession,
    WaitFrame,
    BeginFrame,
    EndFrame,
    AcquireImage,
    WaitImage,
    Paint,
    ReleaseImage,
    Mark,
    Await,
    Leave,
    Device,
    NextFrame,
}

/// What `wait_frame` gives: the predicted time and the period in ns, and whether to render.
#[derive(Clone, Copy)]
pub struct FrameState {
    pub time: i64,
    pub period: i64,
    pub render: bool,
}

/// What a call gives beside its code.
#[derive(Clone, Copy)]
pub enum Gives {
    Nothing,
    Handle(u64),
    /// A system, an image's index or a mark's value.
    Number(u64),
    Frame(FrameState),
    /// The compositor was shown a frame.
    Shown,
    /// Every application has left and no frame is pending.
    Ended,
}

impl Gives {
    /// What the name of an op stands for, 0 where the call gave nothing.
    pub fn value(self) -> u64 {
        match self {
            Gives::Handle(n) | Gives::Number(n) => n,
            Gives::Frame(state) => state.time as u64,
            Gives::Nothing | Gives::Shown | Gives::Ended => 0,
        }
    }
}

/// What a call answers; `place` is the count of locked calls decided so far, this one included.
#[derive(Clone, Copy)]
pub struct Reply {
    pub code: Code,
    pub gives: Gives,
    pub place: u64,
}

/// Why a call has no effect now: it is refused, or has to wait.
pub enum Stop {
    Refused(Code),
    Waits,
}

impl From<Code> for Stop {
    fn from(code: Code) -> Stop {
        Stop::Refused(code)
    }
}

/// What the machine makes of a call before it counts it.
pub type Tried = Result<(Code, Gives), Stop>;
