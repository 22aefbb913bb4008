//! The numbered refusals (01, Refusals and their order; 02 \[1\], \[5\] and \[11\]).

/// A refusal: its number in the papers and its place (0 where none is shown).
///
/// 01, Refusals: "every refusal returns its number and a place". 02 \[1\]: "4
/// is withdrawn; 14, 15, 16 stand where it stood, in that order". 02 \[11\] adds
/// 24, 25 and 26, "in order, place 0".
#[derive(Clone, Copy, PartialEq, Eq, Debug)]
pub struct Refusal {
    /// 01, Refusals; 02 \[1\] and \[11\]: the number, 1 to 3, 5 to 16 or 24 to 26.
    pub number: u8,
    /// 01, Refusals: the place, 0 where none is shown.
    pub place: usize,
}

impl Refusal {
    /// Used length over the buffer or over the limit.
    pub(crate) const USED: Refusal = Refusal::new(1, 0);
    /// The request itself is bad.
    pub(crate) const REQUEST: Refusal = Refusal::new(10, 0);
    /// No number holds urn:lozizol:type and an assignment is needed.
    pub(crate) const NO_TYPE: Refusal = Refusal::new(11, 0);
    /// The reading doesn't fit.
    pub(crate) const READING: Refusal = Refusal::new(13, 0);
    /// Another URI than one of an epoch.
    pub(crate) const NOT_EPOCH: Refusal = Refusal::new(24, 0);
    /// Data not 24 bytes.
    pub(crate) const NOT_SHOT: Refusal = Refusal::new(25, 0);
    /// A figure over its bound.
    pub(crate) const OVER_BOUND: Refusal = Refusal::new(26, 0);

    const fn new(number: u8, place: usize) -> Refusal {
        Refusal { number, place }
    }

    /// Incomplete record.
    pub(crate) const fn incomplete(place: usize) -> Refusal {
        Refusal::new(2, place)
    }

    /// Not the header form.
    pub(crate) const fn not_header(place: usize) -> Refusal {
        Refusal::new(3, place)
    }

    /// The first byte of a size or type is 80. The place is that byte's.
    pub(crate) const fn leading_zero(place: usize) -> Refusal {
        Refusal::new(14, place)
    }

    /// A size or type is over its length limit. The place is that of its last
    /// byte allowed, a size's fourth or a type's ninth.
    pub(crate) const fn too_long(place: usize) -> Refusal {
        Refusal::new(15, place)
    }

    /// Type not over within its size. The place is the record's last byte's.
    pub(crate) const fn type_past_size(place: usize) -> Refusal {
        Refusal::new(16, place)
    }

    /// Assignment data missing, broken, number 0, or URI not allowed.
    pub(crate) const fn bad_assignment(place: usize) -> Refusal {
        Refusal::new(5, place)
    }

    /// Type number not held.
    pub(crate) const fn not_held(place: usize) -> Refusal {
        Refusal::new(6, place)
    }

    /// The register is full and a further number is assigned.
    pub(crate) const fn full(place: usize) -> Refusal {
        Refusal::new(7, place)
    }

    /// Erase: no live entry starts there; wipe: no deleted record does.
    pub(crate) const fn nothing_there(place: usize) -> Refusal {
        Refusal::new(8, place)
    }

    /// Erase of a header or an assignment.
    pub(crate) const fn protected(place: usize) -> Refusal {
        Refusal::new(9, place)
    }

    /// The records don't fit.
    pub(crate) const fn no_space(place: usize) -> Refusal {
        Refusal::new(12, place)
    }
}
