//! Guidance of small unmanned planes: the proved library behind the published Rust's names.
//!
//! [`PlaneGuidance`] stands where stable-flight's stood. What differs for code that moves over:
//! `new` and `guide` give a [`Result`], since what panicked or went wrong there is refused here, and
//! a refused call changes nothing; [`VehicleState`] has only what the guidance reads; every call on a
//! guidance or its route names its [`Caller`].
//!
//! ```
//! use nuthkolla::{
//!     AttitudeCommand, Caller, ControlInput, FlightRegime, PlaneGuidance, PlaneGuidanceConfig, Refusal, Setpoint, VehicleState,
//! };
//!
//! let mut guidance = PlaneGuidance::new(Caller::Skipper, PlaneGuidanceConfig::default())?;
//! let full_right = ControlInput::Attitude(AttitudeCommand { throttle: 0.7, roll: 1.0, ..Default::default() });
//! let state = VehicleState::default();
//! let Setpoint::Plane(setpoint) = guidance.guide(Caller::Deckhand, 0.01, FlightRegime::Plane, &full_right, &state)? else {
//!     unreachable!("sticks give a plane attitude");
//! };
//! assert_eq!(setpoint.roll_rad, 45f32.to_radians());
//! assert_eq!(setpoint.thrust, 0.7);
//! assert_eq!(guidance.guide(Caller::Deckhand, -1.0, FlightRegime::Plane, &full_right, &state), Err(Refusal::TimeStep));
//! // 13 comes before 2, and a watcher moves nothing
//! assert_eq!(guidance.guide(Caller::Watcher, -1.0, FlightRegime::Plane, &full_right, &state), Err(Refusal::Right));
//! assert_eq!(guidance.prime(Caller::Watcher, &state), Err(Refusal::Right));
//! assert_eq!(guidance.set_config(Caller::Deckhand, PlaneGuidanceConfig::default()), Err(Refusal::Right));
//! assert_eq!(guidance.flight_mode(Caller::Watcher)?.refusal, None);
//! assert!(!guidance.stall_guard(Caller::Watcher)?);
//! # Ok::<(), Refusal>(())
//! ```

pub mod ffi;
mod types;

pub use types::*;

/// The greatest length of a call record.
pub const CALL_BYTES: usize = 86;
/// The greatest length of a configuration record.
pub const CONFIG_BYTES: usize = 137;
/// The greatest length of a route record.
pub const ROUTE_BYTES: usize = 1000;
/// The numbers of the points of the longest route, four a point.
pub const ROUTE_NUMBERS: usize = 248;

/// The greatest number of steps of a drawn path.
pub const PATH_STEPS: usize = 600;

/// A drawn path: how many points, and where it stopped, if it did.
#[derive(Clone, Copy, Debug, PartialEq)]
pub struct DrawnPath {
    pub drawn: usize,
    pub stopped: Option<PathStop>,
}

/// The step at which a path stopped, counted from 1, and its refusal; `None` for a number that is not finite.
#[derive(Clone, Copy, Debug, PartialEq)]
pub struct PathStop {
    pub step: usize,
    pub refusal: Option<Refusal>,
}

/// A call as its record carries it.
#[derive(Clone, Copy, Debug, PartialEq)]
pub enum Call {
    Prime,
    Guide { dt: f32, regime: FlightRegime, input: ControlInput, state: VehicleState, pitch_cap_rad: Option<f32> },
}

/// Fixed-wing guidance for piloted and offboard flight.
#[derive(Clone, Debug, PartialEq)]
pub struct PlaneGuidance {
    held: ffi::Guidance,
}

impl PlaneGuidance {
    /// Guidance with `config`.
    ///
    /// # Errors
    ///
    /// Refusal 13, then 1 with the first field that fails.
    pub fn new(caller: Caller, config: PlaneGuidanceConfig) -> Result<Self, Refusal> {
        let mut record = [0; CONFIG_BYTES];
        let next = write_config(&mut record, 0, &config)?;
        Self::from_record(caller, &record[..next])
    }

    /// Guidance with the configuration of a record.
    ///
    /// # Errors
    ///
    /// Refusal 13, then 5 and 6 of the record, then 1.
    pub fn from_record(caller: Caller, record: &[u8]) -> Result<Self, Refusal> {
        let mut guidance = PlaneGuidance { held: ffi::Guidance::default() };
        guidance.run(caller, ffi::NEW, record)?;
        Ok(guidance)
    }

    /// The setpoint for a command.
    ///
    /// # Errors
    ///
    /// Refusals 13, 2 and 4.
    pub fn guide(
        &mut self,
        caller: Caller,
        dt: f32,
        regime: FlightRegime,
        input: &ControlInput,
        state: &VehicleState,
    ) -> Result<Setpoint, Refusal> {
        self.guide_capped(caller, dt, regime, input, state, None)
    }

    /// The setpoint for a command, with a waypoint's pitch held within `pitch_cap_rad` either way.
    ///
    /// ```
    /// # use nuthkolla::*;
    /// let mut guidance = PlaneGuidance::new(Caller::Skipper, PlaneGuidanceConfig::default())?;
    /// // 1,000 m too low, and no airspeed: the pitch is the greatest, 20 degrees
    /// let climb = ControlInput::Waypoint(WaypointCommand { altitude_m: 1000.0, ..Default::default() });
    /// let mut pitch = |cap: Option<f32>| {
    ///     let answer = guidance.guide_capped(Caller::Skipper, 1.0, FlightRegime::Plane, &climb, &VehicleState::default(), cap)?;
    ///     let Setpoint::Plane(setpoint) = answer else { unreachable!("a waypoint gives a plane attitude") };
    ///     Ok(setpoint.pitch_rad)
    /// };
    /// assert_eq!(pitch(None)?, PlaneGuidanceConfig::default().max_pitch_up_rad);
    /// assert_eq!(pitch(Some(0.125))?, 0.125);
    /// assert_eq!(pitch(Some(-0.125)), Err(Refusal::Cap));
    /// # Ok::<(), Refusal>(())
    /// ```
    ///
    /// # Errors
    ///
    /// Refusals 13, 2, 3 and 4.
    pub fn guide_capped(
        &mut self,
        caller: Caller,
        dt: f32,
        regime: FlightRegime,
        input: &ControlInput,
        state: &VehicleState,
        pitch_cap_rad: Option<f32>,
    ) -> Result<Setpoint, Refusal> {
        let call = Call::Guide { dt, regime, input: *input, state: *state, pitch_cap_rad };
        let answer = self.call(caller, &call)?;
        Ok(answer.setpoint.expect("an accepted guide call answers a setpoint"))
    }

    /// Draws the turn to come: the path of a waypoint call, of `steps` steps, as north, east and height into `out`. The guidance
    /// is not changed. Whoever draws acts as the skipper.
    ///
    /// ```
    /// # use nuthkolla::*;
    /// let guidance = PlaneGuidance::new(Caller::Skipper, PlaneGuidanceConfig::default())?;
    /// let command = WaypointCommand { velocity_mps: Some(Vec2::new(16.0, 0.0)), ..Default::default() };
    /// let state = VehicleState { velocity_mps: Vec3::new(0.0, 16.0, 0.0), ..Default::default() };
    /// let mut points = [0.0; 3 * 20];
    /// let path = guidance.draw_path(0.5, FlightRegime::Plane, &command, &state, None, 20, &mut points)?;
    /// assert_eq!(path, DrawnPath { drawn: 20, stopped: None });
    /// assert!(points[3 * 19] > points[0], "it comes round to the north");
    ///
    /// // 1e38 m a step: the fourth is past the greatest number, and nothing is drawn for it
    /// let fast = VehicleState { velocity_mps: Vec3::new(1e19, 0.0, 0.0), ..Default::default() };
    /// let path = guidance.draw_path(1e19, FlightRegime::Plane, &command, &fast, None, 9, &mut points)?;
    /// assert_eq!(path, DrawnPath { drawn: 3, stopped: Some(PathStop { step: 4, refusal: None }) });
    /// let path = guidance.draw_path(0.0, FlightRegime::Plane, &command, &state, None, 9, &mut points)?;
    /// assert_eq!(path, DrawnPath { drawn: 0, stopped: Some(PathStop { step: 1, refusal: Some(Refusal::TimeStep) }) });
    /// # Ok::<(), Refusal>(())
    /// ```
    ///
    /// # Errors
    ///
    /// Refusals 12 and 8. A step that is refused ends the path.
    #[allow(clippy::too_many_arguments)]
    pub fn draw_path(
        &self,
        dt: f32,
        regime: FlightRegime,
        command: &WaypointCommand,
        state: &VehicleState,
        pitch_cap_rad: Option<f32>,
        steps: usize,
        out: &mut [f32],
    ) -> Result<DrawnPath, Refusal> {
        let call = Call::Guide { dt, regime, input: ControlInput::Waypoint(*command), state: *state, pitch_cap_rad };
        // Safety: the buffer is borrowed for the call.
        let path = unsafe { ffi::nuthkolla_draw_path(self.held, numbers_of(&call), steps, out.as_mut_ptr(), out.len()) };
        Refusal::of(path.refusal)?;
        let refusal = Refusal::of(path.reason).err();
        let stopped = (path.stopped != 0).then_some(PathStop { step: path.stopped, refusal });
        Ok(DrawnPath { drawn: path.drawn, stopped })
    }

    /// Clears the navigation loops: integrals, demands, and underspeed.
    ///
    /// # Errors
    ///
    /// Refusal 13 alone.
    pub fn prime(&mut self, caller: Caller, _state: &VehicleState) -> Result<(), Refusal> {
        self.call(caller, &Call::Prime).map(|_| ())
    }

    /// Any call; a waypoint's answer names its laws too.
    ///
    /// # Errors
    ///
    /// Refusal 13; of a guide call then 2, 3 and 4.
    pub fn call(&mut self, caller: Caller, call: &Call) -> Result<Answer, Refusal> {
        let mut record = [0; CALL_BYTES];
        let next = write_call(&mut record, 0, call)?;
        self.call_record(caller, &record[..next])
    }

    /// The call that a record carries; bytes behind the record are not read.
    ///
    /// # Errors
    ///
    /// Refusal 13, then 5, 6 and 7 of the record, then 2, 3 and 4.
    pub fn call_record(&mut self, caller: Caller, record: &[u8]) -> Result<Answer, Refusal> {
        let answer = self.run(caller, ffi::CALL, record)?;
        let laws = laws_of(&answer);
        let cross_track_m = laws.map(|_| answer.cross_track_m);
        Ok(Answer { setpoint: setpoint_of(&answer), laws, cross_track_m, next: answer.next })
    }

    /// Sets the configuration; integrals and demands stay.
    ///
    /// # Errors
    ///
    /// Refusal 13, then 1 with the first field that fails; the configuration then stays as it was.
    pub fn set_config(&mut self, caller: Caller, config: PlaneGuidanceConfig) -> Result<(), Refusal> {
        let mut record = [0; CONFIG_BYTES];
        let next = write_config(&mut record, 0, &config)?;
        self.set_config_record(caller, &record[..next]).map(|_| ())
    }

    /// Sets the configuration of a record, and gives the place after it.
    ///
    /// # Errors
    ///
    /// Refusal 13, then 5 and 6 of the record, then 1.
    pub fn set_config_record(&mut self, caller: Caller, record: &[u8]) -> Result<usize, Refusal> {
        Ok(self.run(caller, ffi::SET_CONFIG, record)?.next)
    }

    /// Takes the last accepted change of the configuration back: the one before it is in force again and is forgotten; integrals and
    /// demands stay.
    ///
    /// ```
    /// use nuthkolla::{Caller, PlaneGuidance, PlaneGuidanceConfig, Refusal};
    ///
    /// let skipper = Caller::Skipper;
    /// let mut guidance = PlaneGuidance::new(skipper, PlaneGuidanceConfig::default())?;
    /// guidance.set_config(skipper, PlaneGuidanceConfig { max_bank_rad: 1.0, ..Default::default() })?;
    /// assert_eq!(guidance.take_back(Caller::Deckhand), Err(Refusal::Right));
    /// guidance.take_back(skipper)?;
    /// assert_eq!(guidance.config(), &PlaneGuidanceConfig::default());
    /// assert_eq!(guidance.take_back(skipper), Err(Refusal::NothingKept));
    /// # Ok::<(), Refusal>(())
    /// ```
    ///
    /// # Errors
    ///
    /// Refusal 13, then 14.
    pub fn take_back(&mut self, caller: Caller) -> Result<(), Refusal> {
        self.run(caller, ffi::TAKE_BACK, &[]).map(|_| ())
    }

    pub fn config(&self) -> &PlaneGuidanceConfig {
        &self.held.config
    }

    /// Always plane; a `Copter` request is refused as unsupported.
    ///
    /// # Errors
    ///
    /// None: every caller may read it.
    pub fn flight_mode(&self, caller: Caller) -> Result<FlightModeReport, Refusal> {
        let unsupported = self.report(caller, ffi::MODE)? != 0;
        Ok(FlightModeReport { mode: FlightMode::Plane, refusal: unsupported.then_some(ModeRefusal::Unsupported) })
    }

    /// Whether the stall guard stands: then it is why an energy step's thrust is at its top.
    ///
    /// # Errors
    ///
    /// None: every caller may read it.
    pub fn stall_guard(&self, caller: Caller) -> Result<bool, Refusal> {
        Ok(self.report(caller, ffi::STALL_GUARD)? != 0)
    }

    fn report(&self, caller: Caller, what: u32) -> Result<u32, Refusal> {
        // Safety: it takes values alone.
        let report = unsafe { ffi::nuthkolla_report(self.held, caller.number(), what) };
        Refusal::of(report.refusal)?;
        Ok(report.value)
    }

    /// The guidance as the library holds it.
    pub fn held(&self) -> &ffi::Guidance {
        &self.held
    }

    fn run(&mut self, caller: Caller, what: u32, bytes: &[u8]) -> Result<ffi::Answer, Refusal> {
        // Safety: both are borrowed for the call, the guidance for itself alone.
        let answer = unsafe { ffi::nuthkolla_run(&mut self.held, caller.number(), what, bytes.as_ptr(), bytes.len()) };
        if answer.refusal == 1 {
            let (config, _) = read_config(bytes, 0)?;
            return Err(Refusal::Config(InvalidConfig::of(answer.field, &config)));
        }
        Refusal::of(answer.refusal)?;
        Ok(answer)
    }
}

/// A route: up to 62 points, and the number of the point that is flown to.
///
/// ```
/// use nuthkolla::{Caller, FlightRegime, PlaneGuidance, PlaneGuidanceConfig, Refusal, Route, VehicleState};
///
/// // bits 0 and 2: two points, 100 m apart, each north, east, altitude, cruise speed
/// let mut record = vec![5, 0, 0, 0];
/// for number in [0f32, 0.0, 80.0, 17.0, 100.0, 0.0, 80.0, 17.0] {
///     record.extend(number.to_le_bytes());
/// }
/// let (skipper, deckhand) = (Caller::Skipper, Caller::Deckhand);
/// let (mut route, next) = Route::load(skipper, &record, 0)?;
/// assert_eq!((next, route.number(), route.points().count()), (36, 1, 2));
/// let mut guidance = PlaneGuidance::new(skipper, PlaneGuidanceConfig::default())?;
/// let at_first = VehicleState::default();
/// guidance.guide_route(deckhand, &mut route, 0.1, FlightRegime::Plane, &at_first, None)?;
/// assert_eq!(route.number(), 2);
/// assert_eq!(guidance.guide_route(deckhand, &mut route, -1.0, FlightRegime::Plane, &at_first, None), Err(Refusal::TimeStep));
/// let mut again = [0; 36];
/// assert_eq!(route.write(deckhand, &mut again, 0), Err(Refusal::Right));
/// route.write(skipper, &mut again, 0)?;
/// assert_eq!(again[..], record[..]);
/// assert_eq!(Route::load(skipper, &[0, 0, 0, 0], 0), Err(Refusal::NoPoint));
/// assert_eq!(Route::load(deckhand, &[0, 0, 0, 0], 0), Err(Refusal::Right));
///
/// // bit 31 of the first map: a second follows, here with bit 0
/// let long = [&[1, 0, 0, 128, 1, 0, 0, 0], &record[4..]].concat();
/// let (route, next) = Route::load(skipper, &long, 0)?;
/// assert_eq!((next, route.map(), route.points().count()), (40, 1 | 1 << 31, 2));
/// assert_eq!(Route::load(skipper, &[1, 0, 0, 128, 0, 0, 0, 0], 0), Err(Refusal::Map));
/// # Ok::<(), Refusal>(())
/// ```
#[derive(Clone, Debug, PartialEq)]
pub struct Route {
    held: ffi::Route,
}

impl Route {
    /// The route of a record from the place `at` on, and the place after it. Its number is 1.
    ///
    /// # Errors
    ///
    /// Refusal 13, then 5, 6, 10 and 11.
    pub fn load(caller: Caller, record: &[u8], at: usize) -> Result<(Self, usize), Refusal> {
        let mut held = ffi::Route { map: 0, number: 0, numbers: [0.0; ROUTE_NUMBERS] };
        let numbers = &mut held.numbers;
        let caller = caller.number();
        // Safety: both are borrowed for the call.
        let loaded = unsafe { ffi::nuthkolla_load_route(caller, record.as_ptr(), record.len(), at, numbers.as_mut_ptr(), numbers.len()) };
        Refusal::of(loaded.refusal)?;
        held.map = loaded.map;
        held.number = loaded.number;
        Ok((Route { held }, loaded.next))
    }

    /// From 1 to one past the last point.
    pub fn number(&self) -> u32 {
        self.held.number
    }

    /// Which points stand: bits 0 to 30 are those of the record's first map, bits 31 to 61 are bits 0 to 30 of the second.
    pub fn map(&self) -> u64 {
        self.held.map
    }

    /// North, east, altitude and cruise speed of each standing point.
    pub fn points(&self) -> impl Iterator<Item = &[f32]> {
        self.held.numbers.chunks(4).take(self.held.map.count_ones() as usize)
    }

    /// Writes the route's record from the place `at` on, keeps the other bytes, and gives the place after it.
    ///
    /// # Errors
    ///
    /// Refusal 13, then 8.
    pub fn write(&self, caller: Caller, out: &mut [u8], at: usize) -> Result<usize, Refusal> {
        let numbers = &self.held.numbers;
        let (caller, map) = (caller.number(), self.held.map);
        // Safety: both are borrowed for the call.
        let place = unsafe { ffi::nuthkolla_write_route(caller, out.as_mut_ptr(), out.len(), at, map, numbers.as_ptr(), numbers.len()) };
        Refusal::of(place.refusal)?;
        Ok(place.next)
    }
}

impl PlaneGuidance {
    /// A route call: moves on by one point where the point is passed, then flies to the point reached.
    ///
    /// # Errors
    ///
    /// Refusals 13, 2, 3 and 4; guidance and route then stay as they were.
    pub fn guide_route(
        &mut self,
        caller: Caller,
        route: &mut Route,
        dt: f32,
        regime: FlightRegime,
        state: &VehicleState,
        pitch_cap_rad: Option<f32>,
    ) -> Result<Answer, Refusal> {
        let call = ffi::RouteCall {
            map: route.held.map,
            number: route.held.number,
            regime: match regime {
                FlightRegime::Copter => 0,
                FlightRegime::Plane => 1,
            },
            dt,
            position_m: state.position_m,
            velocity_mps: state.velocity_mps,
            roll_rad: state.roll_rad,
            has_airspeed: state.airspeed_mps.is_some() as u32,
            airspeed_mps: state.airspeed_mps.unwrap_or(0.0),
            has_cap: pitch_cap_rad.is_some() as u32,
            pitch_cap_rad: pitch_cap_rad.unwrap_or(0.0),
        };
        let (caller, numbers) = (caller.number(), &route.held.numbers);
        // Safety: both are borrowed for the call, the guidance for itself alone.
        let flown = unsafe { ffi::nuthkolla_run_route(&mut self.held, caller, call, numbers.as_ptr(), numbers.len()) };
        Refusal::of(flown.answer.refusal)?;
        route.held.number = flown.number;
        let cross_track_m = Some(flown.answer.cross_track_m);
        Ok(Answer { setpoint: setpoint_of(&flown.answer), laws: laws_of(&flown.answer), cross_track_m, next: 0 })
    }
}

fn setpoint_of(answer: &ffi::Answer) -> Option<Setpoint> {
    match answer.setpoint {
        ffi::PLANE => Some(Setpoint::Plane(PlaneSetpoint { roll_rad: answer.roll, pitch_rad: answer.pitch, thrust: answer.thrust })),
        ffi::PLANE_RATE => Some(Setpoint::PlaneRate(BodyRateSetpoint {
            roll_radps: answer.roll,
            pitch_radps: answer.pitch,
            yaw_radps: answer.yaw,
            thrust: answer.thrust,
        })),
        _ => None,
    }
}

fn laws_of(answer: &ffi::Answer) -> Option<Laws> {
    let lateral = match answer.lateral {
        ffi::TRACK => LateralLaw::Track,
        ffi::LOITER => LateralLaw::Loiter,
        ffi::IDLE => LateralLaw::Idle,
        _ => return None,
    };
    let vertical = match answer.vertical {
        ffi::ENERGY => VerticalLaw::Energy,
        ffi::HOLD => VerticalLaw::Hold,
        ffi::FALLBACK => VerticalLaw::Fallback,
        _ => return None,
    };
    Some(Laws { lateral, vertical })
}

/// Writes a call's record from the place `at` on, keeps the other bytes, and gives the place after it.
///
/// # Errors
///
/// Refusal 8.
pub fn write_call(out: &mut [u8], at: usize, call: &Call) -> Result<usize, Refusal> {
    // Safety: the buffer is borrowed for the call.
    let place = unsafe { ffi::nuthkolla_write_call(out.as_mut_ptr(), out.len(), at, numbers_of(call)) };
    Refusal::of(place.refusal)?;
    Ok(place.next)
}

/// Writes a configuration's record from the place `at` on, keeps the other bytes, and gives the place after it.
///
/// # Errors
///
/// Refusal 8.
pub fn write_config(out: &mut [u8], at: usize, config: &PlaneGuidanceConfig) -> Result<usize, Refusal> {
    // Safety: the buffer is borrowed for the call.
    let place = unsafe { ffi::nuthkolla_write_config(out.as_mut_ptr(), out.len(), at, *config) };
    Refusal::of(place.refusal)?;
    Ok(place.next)
}

/// Reads a configuration's record from the place `at` on, without judging its numbers, and gives the place after it.
///
/// # Errors
///
/// Refusals 5 and 6.
pub fn read_config(record: &[u8], at: usize) -> Result<(PlaneGuidanceConfig, usize), Refusal> {
    // Safety: the bytes are borrowed for the call.
    let read = unsafe { ffi::nuthkolla_read_config(record.as_ptr(), record.len(), at) };
    Refusal::of(read.refusal)?;
    Ok((read.config, read.next))
}

/// A recording that was refused: by which refusal, at which call, counted from 1; 0 is the configuration.
#[derive(Clone, Copy, Debug, PartialEq)]
pub struct RecordingRefused {
    pub refusal: Refusal,
    pub call: u32,
}

/// Compacts a recording, all of `bytes`, in place: drops the calls that demand 3 allows to be struck, closes the gaps,
/// clears what is left and gives the new length. Replaying the short recording gives each remaining call its answer again.
/// Whoever replays records acts as the skipper.
///
/// # Errors
///
/// Refusals 5, 6 and 7 of a record, 1 of the configuration, 9 for more than 4,096 calls; the bytes are kept.
///
/// ```
/// use nuthkolla::{compact, RecordingRefused, Refusal};
/// let (configuration, land, slipped) = ([0; 5], [5, 0, 0, 0, 5, 0, 0, 128, 63], [1, 0, 0, 0, 5]);
/// let mut bytes = [&configuration[..], &slipped, &land, &slipped].concat();
/// assert_eq!(compact(&mut bytes), Ok(14));
/// assert_eq!(bytes[..14], [&configuration[..], &land].concat());
/// assert_eq!(bytes[14..], [0; 10]);
/// let mut cut = [&configuration[..], &land, &land[..6]].concat();
/// let before = cut.clone();
/// assert_eq!(compact(&mut cut), Err(RecordingRefused { refusal: Refusal::Short, call: 2 }));
/// assert_eq!(cut, before);
/// ```
pub fn compact(bytes: &mut [u8]) -> Result<usize, RecordingRefused> {
    // Safety: the buffer is borrowed for the call.
    let done = unsafe { ffi::nuthkolla_compact(bytes.as_mut_ptr(), bytes.len()) };
    judged(bytes, done.refusal, done.field, done.call)?;
    Ok(done.length)
}

/// What refused a recording: refusal 1 with its field's number, and of 34 and 35 with the two numbers that are crossed.
fn judged(bytes: &[u8], refusal: u32, field: u32, call: u32) -> Result<(), RecordingRefused> {
    let refused = |refusal| RecordingRefused { refusal, call };
    if refusal == 1 {
        let (config, _) = read_config(bytes, 0).map_err(refused)?;
        return Err(refused(Refusal::Config(InvalidConfig::of(field, &config))));
    }
    Refusal::of(refusal).map_err(refused)
}

/// What two recordings of one flight tell.
#[derive(Clone, Copy, Debug, PartialEq)]
pub enum Agreement {
    /// One story: the remaining calls have equal answers in both replays.
    Agree,
    /// The first remaining call in each at which call values part, counted from 1 in the recording as it is: 0 in both if the
    /// configurations part, 0 in one that has no such call left.
    Part { box_call: u32, display_call: u32 },
}

/// Which of two recordings was refused.
#[derive(Clone, Copy, Debug, PartialEq)]
pub enum End {
    Box,
    Display,
}

/// Holds the box's recording and the display's together, each without the calls that [`compact`] would drop. Values are held
/// equal as bits, every NaN alike, whatever map spelled them. Whoever replays records acts as the skipper.
///
/// # Errors
///
/// Whose recording [`compact`] would refuse, the box's first, and by what.
///
/// ```
/// use nuthkolla::{agree, Agreement};
/// let (configuration, land) = ([0; 5], [5, 0, 0, 0, 5, 0, 0, 128, 63]);
/// let of_box = [&configuration[..], &land, &land].concat();
/// let of_display = [&configuration[..], &land].concat();
/// assert_eq!(agree(&of_box, &of_box), Ok(Agreement::Agree));
/// assert_eq!(agree(&of_box, &of_display), Ok(Agreement::Part { box_call: 2, display_call: 0 }));
/// ```
pub fn agree(of_box: &[u8], of_display: &[u8]) -> Result<Agreement, (End, RecordingRefused)> {
    // Safety: both recordings are borrowed for the call.
    let found = unsafe { ffi::nuthkolla_agree(of_box.as_ptr(), of_box.len(), of_display.as_ptr(), of_display.len()) };
    let (end, bytes) = if found.whose == ffi::DISPLAY { (End::Display, of_display) } else { (End::Box, of_box) };
    judged(bytes, found.refusal, found.field, found.call).map_err(|refused| (end, refused))?;
    if found.agree == 1 {
        return Ok(Agreement::Agree);
    }
    Ok(Agreement::Part { box_call: found.box_call, display_call: found.display_call })
}

/// An edition of the call record. In the second, altitude, position z and velocity z are positive downward.
#[derive(Clone, Copy, Debug, PartialEq)]
pub enum Edition {
    First,
    Second,
}

/// Where a conversion ended: the place after the record that was read, and the one after the record that was written.
#[derive(Clone, Copy, Debug, PartialEq)]
pub struct Converted {
    pub read: usize,
    pub written: usize,
}

/// Converts the call record at the place `at` of `bytes` to the wanted edition, and writes it from the place `place` of `out` on;
/// the other bytes are kept. Only this function reads the second edition: others refuse it with 6.
///
/// # Errors
///
/// Refusals 5, 6 and 7 of the record, 15 where it is of the wanted edition already, 8; `out` is kept.
///
/// ```
/// use nuthkolla::{convert_record, Converted, Edition, Refusal};
///
/// let down = [0x05, 0x08, 0x40, 0x00, 0x03, 0x00, 0x00, 0x80, 0x3f, 0x00, 0x00, 0x80, 0xbf];
/// let mut up = [0; 13];
/// assert_eq!(convert_record(&down, 0, Edition::First, &mut up, 0), Ok(Converted { read: 13, written: 13 }));
/// assert_eq!(up, [0x05, 0x08, 0x00, 0x00, 0x03, 0x00, 0x00, 0x80, 0x3f, 0x00, 0x00, 0x80, 0x3f]);
/// assert_eq!(convert_record(&down, 0, Edition::Second, &mut up, 0), Err(Refusal::Already));
/// ```
pub fn convert_record(bytes: &[u8], at: usize, wanted: Edition, out: &mut [u8], place: usize) -> Result<Converted, Refusal> {
    let edition = match wanted {
        Edition::First => 1,
        Edition::Second => 2,
    };
    // Safety: both buffers are borrowed for the call, and do not overlap.
    let done = unsafe {
        ffi::nuthkolla_convert_record(bytes.as_ptr(), bytes.len(), at, edition, out.as_mut_ptr(), out.len(), place)
    };
    Refusal::of(done.refusal)?;
    Ok(Converted { read: done.read, written: done.written })
}

fn numbers_of(call: &Call) -> ffi::Call {
    let Call::Guide { dt, regime, input, state, pitch_cap_rad } = call else {
        return ffi::Call { kind: ffi::PRIME, regime: 1, ..Default::default() };
    };
    let regime = match regime {
        FlightRegime::Copter => 0,
        FlightRegime::Plane => 1,
    };
    let of = |kind, numbers| ffi::Call { kind, regime, dt: *dt, numbers, ..Default::default() };
    match input {
        ControlInput::Attitude(k) => of(ffi::ATTITUDE, [k.roll, k.pitch, k.throttle, 0.0]),
        ControlInput::Rate(k) => of(ffi::RATE, [k.roll_rate, k.pitch_rate, k.yaw_rate, k.throttle]),
        ControlInput::AbsoluteAttitude(k) => of(ffi::ABSOLUTE_ATTITUDE, [k.roll_rad, k.pitch_rad, k.thrust, 0.0]),
        ControlInput::Land(_) => of(ffi::LAND, [0.0; 4]),
        ControlInput::AbsoluteRate(k) => of(ffi::ABSOLUTE_RATE, [k.roll_radps, k.pitch_radps, k.yaw_radps, k.thrust]),
        ControlInput::Waypoint(w) => {
            let leg = w.velocity_mps.unwrap_or_default();
            ffi::Call {
                waypoint: [w.position_m.x, w.position_m.y],
                has_leg: w.velocity_mps.is_some() as u32,
                leg: [leg.x, leg.y],
                altitude_m: w.altitude_m,
                cruise_speed_mps: w.cruise_speed_mps,
                position_m: state.position_m,
                velocity_mps: state.velocity_mps,
                roll_rad: state.roll_rad,
                has_airspeed: state.airspeed_mps.is_some() as u32,
                airspeed_mps: state.airspeed_mps.unwrap_or_default(),
                has_cap: pitch_cap_rad.is_some() as u32,
                pitch_cap_rad: pitch_cap_rad.unwrap_or_default(),
                ..of(ffi::WAYPOINT, [0.0; 4])
            }
        }
    }
}
