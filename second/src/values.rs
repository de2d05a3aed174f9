//! The meaning of the 16 data bits: the table of ids and the typed values (01, 'Data values').

use crate::refusals;

#[derive(Clone, Copy, PartialEq, Eq, Debug)]
pub enum Kind {
    Real,
    S16,
    U16,
    Pair,
    SPair,
    Raw,
}

/// Which of the two commands the 'Msg' column of document 000 prints.
#[derive(Clone, Copy, PartialEq, Eq, Debug)]
pub enum Msg {
    R,
    W,
    RW,
}

use Kind::{Pair, Real, SPair, S16, U16};
use Msg::{R, RW, W};

/// Section 5.3 of document 000 in the document's order; an id that is printed in two rows
/// (high byte, low byte) stands once. An id that isn't here is raw.
#[rustfmt::skip]
pub const LISTED: &[(u8, Kind, Msg)] = &[
    // 5.3.1 Control and Status Information
    (0,   Pair,  R ), // Master status, slave status
    (70,  Pair,  R ), // Master status, status ventilation / heat-recovery
    (101, Pair,  R ), // Master Solar Storage status, Solar Storage mode and status
    (1,   Real,  W ), // Control Setpoint
    (71,  Pair,  W ), // Control Setpoint ventilation / heat-recovery (low byte only)
    (5,   Pair,  R ), // Application-specific fault flags, OEM fault code
    (72,  Pair,  R ), // Fault flags, OEM fault code ventilation / heat-recovery
    (102, Pair,  R ), // Solar Storage specific fault flags, OEM fault code
    (8,   Real,  W ), // Control Setpoint 2 (TsetCH2)
    (115, U16,   R ), // OEM diagnostic code
    (73,  U16,   R ), // OEM diagnostic code ventilation / heat-recovery
    // 5.3.2 Configuration Information
    (2,   Pair,  W ), // Master configuration, Master MemberID code
    (3,   Pair,  R ), // Slave configuration, Slave MemberID code
    (74,  Pair,  R ), // Configuration, MemberID code ventilation / heat-recovery
    (103, Pair,  R ), // Solar Storage configuration, Solar Storage member ID
    (124, Real,  W ), // OpenTherm version Master
    (125, Real,  R ), // OpenTherm version Slave
    (75,  Real,  R ), // OpenTherm version ventilation / heat-recovery
    (126, Pair,  W ), // Master product version number and type
    (127, Pair,  R ), // Slave product version number and type
    (76,  Pair,  R ), // Ventilation / heat-recovery product version number and type
    (104, Pair,  R ), // Solar Storage product version number and type
    (93,  Pair,  R ), // Brand index, Brand ASCII character
    (94,  Pair,  R ), // Brand version index, Brand version ASCII character
    (95,  Pair,  R ), // Brand serial number index, Brand serial number ASCII character
    // 5.3.3 Remote Request
    (4,   Pair,  W ), // Request-Code, Req-Response-Code
    // 5.3.4 Sensor and Informational Data
    (16,  Real,  W ), // Room Setpoint
    (17,  Real,  R ), // Relative Modulation Level
    (18,  Real,  R ), // CH water pressure
    (19,  Real,  R ), // DHW flow rate
    (20,  Pair,  RW), // Day of Week & Time of Day
    (21,  Pair,  RW), // Date
    (22,  U16,   RW), // Year
    (23,  Real,  W ), // Room Setpoint CH2
    (24,  Real,  W ), // Room temperature
    (25,  Real,  R ), // Boiler water temp.
    (26,  Real,  R ), // DHW temperature
    (27,  Real,  RW), // Outside temperature
    (28,  Real,  R ), // Return water temperature
    (29,  Real,  R ), // Solar storage temperature
    (30,  S16,   R ), // Solar collector temperature (5.4 prints f8.8; 5.3 decides)
    (31,  Real,  R ), // Flow temperature CH2
    (32,  Real,  R ), // DHW2 temperature
    (33,  S16,   R ), // Exhaust temperature
    (34,  Real,  R ), // Boiler heat exchanger temperature
    (35,  Pair,  R ), // Boiler fan speed Setpoint, Boiler fan speed
    (36,  Real,  R ), // Flame current
    (37,  Real,  W ), // TrCH2
    (38,  Real,  RW), // Relative Humidity
    (77,  Pair,  R ), // Relative ventilation (low byte only)
    (78,  Pair,  RW), // Relative humidity (low byte only)
    (79,  U16,   RW), // CO2 level
    (80,  Real,  R ), // Supply inlet temperature
    (81,  Real,  R ), // Supply outlet temperature
    (82,  Real,  R ), // Exhaust inlet temperature
    (83,  Real,  R ), // Exhaust outlet temperature
    (84,  U16,   R ), // Actual exhaust fan speed
    (85,  U16,   R ), // Actual inlet fan speed
    (96,  U16,   RW), // Cooling Operation hours
    (97,  U16,   RW), // Power Cycles
    (98,  Pair,  W ), // Type of sensor, RF and battery indication
    (109, U16,   RW), // Electricity producer starts
    (110, U16,   RW), // Electricity producer hours
    (111, U16,   R ), // Electricity production
    (112, U16,   RW), // Cumulative Electricity production
    (113, U16,   RW), // Number of un-successful burner starts
    (114, U16,   RW), // Number of times flame signal was too low
    (116, U16,   RW), // Successful Burner starts
    (117, U16,   RW), // CH pump starts
    (118, U16,   RW), // DHW pump/valve starts
    (119, U16,   RW), // DHW burner starts
    (120, U16,   RW), // Burner operation hours
    (121, U16,   RW), // CH pump operation hours
    (122, U16,   RW), // DHW pump/valve operation hours
    (123, U16,   RW), // DHW burner operation hours
    // 5.3.5 Pre-Defined Remote Boiler Parameters
    (6,   Pair,  R ), // Remote-parameter transfer-enable flags, read/write flags
    (86,  Pair,  R ), // The same two flags, ventilation / heat-recovery
    (48,  SPair, R ), // DHWsetp upp-bound, DHWsetp low-bound
    (49,  SPair, R ), // max CHsetp upp-bnd, max CHsetp low-bnd
    (56,  Real,  RW), // DHW Setpoint
    (57,  Real,  RW), // max CH water Setpoint
    (87,  Pair,  RW), // Nominal ventilation value (high byte only)
    // 5.3.6 Transparent Slave Parameters
    (10,  Pair,  R ), // Number of TSP's, not used
    (11,  Pair,  RW), // TSP index no., TSP value
    (88,  Pair,  R ), // Number of TSP's ventilation / heat-recovery, not used
    (89,  Pair,  RW), // TSP index no., TSP value ventilation / heat-recovery
    (105, Pair,  R ), // Number of TSP's Solar Storage, not used
    (106, Pair,  RW), // TSP index no., TSP value Solar Storage
    // 5.3.7 Fault History Data
    (12,  Pair,  R ), // Size of Fault Buffer, not used
    (13,  Pair,  R ), // FHB-entry index no., FHB-entry value
    (90,  Pair,  R ), // Size of Fault Buffer ventilation / heat-recovery, not used
    (91,  Pair,  R ), // FHB-entry index no., value ventilation / heat-recovery
    (107, Pair,  R ), // Size of Fault Buffer Solar Storage, not used
    (108, Pair,  R ), // FHB-entry index no., FHB-entry value Solar Storage
    // 5.3.8 Control of Special Applications
    (7,   Real,  W ), // Cooling control signal
    (14,  Real,  W ), // Maximum relative modulation level setting
    (15,  Pair,  R ), // Maximum boiler capacity, Minimum modulation level
    (9,   Real,  R ), // Remote Override Room Setpoint
    (39,  Real,  R ), // Remote Override Room Setpoint 2
    (99,  Pair,  RW), // Remote Override Operating Mode DHW, Heating
    (100, Pair,  R ), // Reserved, Remote Override Room Setpoint function
];

/// "An id not listed is raw and neither readable nor writable."
pub fn kind_of(id: u8) -> Kind {
    match LISTED.iter().find(|entry| entry.0 == id) {
        Some(entry) => entry.1,
        None => Kind::Raw,
    }
}

#[derive(Clone, Copy, PartialEq, Debug)]
pub enum Value {
    Real(f32),
    S16(i16),
    U16(u16),
    Pair(u8, u8),
    SPair(i8, i8),
    Raw(u16),
}

/// "The f8.8 real is the signed raw number divided by 256, as a single-precision float, with
/// nothing rounded; 0 gives plus zero."
pub fn real_of(raw: u16) -> f32 {
    f32::from(raw as i16) / 256.0
}

pub fn typed(kind: Kind, raw: u16) -> Value {
    let [high, low] = raw.to_be_bytes();
    match kind {
        Kind::Real => Value::Real(real_of(raw)),
        Kind::S16 => Value::S16(raw as i16),
        Kind::U16 => Value::U16(raw),
        Kind::Pair => Value::Pair(high, low),
        Kind::SPair => Value::SPair(high as i8, low as i8),
        Kind::Raw => Value::Raw(raw),
    }
}

impl Value {
    /// "Each typed value turns back into its 16 bits; a real whose float bits aren't those of
    /// one of the 65,536 raw numbers (NaN, minus zero, 0.3, 128) is refusal 10."
    pub fn back(self) -> Result<u16, u8> {
        match self {
            Value::Real(real) => raw_of(real),
            Value::S16(number) => Ok(number as u16),
            Value::U16(number) | Value::Raw(number) => Ok(number),
            Value::Pair(high, low) => Ok(u16::from_be_bytes([high, low])),
            Value::SPair(high, low) => Ok(u16::from_be_bytes([high as u8, low as u8])),
        }
    }
}

/// The nearest raw number is only a candidate: its own float bits decide.
fn raw_of(real: f32) -> Result<u16, u8> {
    let candidate = (real * 256.0) as i16 as u16;
    if real_of(candidate).to_bits() == real.to_bits() {
        Ok(candidate)
    } else {
        Err(refusals::NO_RAW_NUMBER)
    }
}
