use crate::{raw, Error, Frame, CARRY_ROOM};

/// Frames taken as a line delivers them: fed bytes piece by piece, a session gives frame by frame.
///
/// It owns its carry buffer, [`CARRY_ROOM`] bytes: a frame that lies whole in a piece is shown there and nothing is
/// copied; one that a piece cuts is put together in the buffer, each byte copied once. However the line's bytes are cut,
/// the frames, the refusal and the offsets are the same.
///
/// ```
/// use laksubinat::{Kind, Session};
///
/// # fn main() -> Result<(), laksubinat::Error> {
/// let line = [0x05, 0x82, 0x00, 0x40, 0x01, 0x07, 0x03, 0x81, 0x00, 0x00]; // a ping with sync 7, then an ok
/// let mut session = Session::new();
///
/// let mut frames = session.feed(&line[..4]);
/// assert!(frames.next()?.is_none()); // the ping is begun
/// assert_eq!(session.begun(), &line[..4]);
///
/// let mut frames = session.feed(&line[4..]);
/// let ping = frames.next()?.unwrap();
/// assert_eq!((ping.frame.kind(), ping.frame.sync), (Some(Kind::Ping), Some(7)));
/// assert_eq!((ping.bytes, ping.offset), (&line[..6], 0));
/// let ok = frames.next()?.unwrap();
/// assert_eq!((ok.frame.kind(), ok.offset), (Some(Kind::Ok), 6));
/// assert!(frames.next()?.is_none()); // the piece is used up
/// assert_eq!(session.offset(), 10);
/// # Ok(())
/// # }
/// ```
pub struct Session {
    carry: Box<[u8]>,
    state: raw::Session,
}

/// The frames of one piece, which [`Session::feed`] gives: each with [`Frames::next`].
#[must_use = "only `next` takes bytes of the piece"]
pub struct Frames<'s, 'p> {
    session: &'s mut Session,
    rest: &'p [u8],
}

/// A frame that a session gives.
#[derive(Clone, Copy, Debug, PartialEq, Eq)]
pub struct Shown<'a> {
    /// Exactly its bytes, size number included: a part of the piece or of the session's carry buffer.
    pub bytes: &'a [u8],
    /// Its record; the places are those in `bytes`.
    pub frame: Frame,
    /// Where it begins: the length of all frames given before it since the opening or reset, going round at 2^64.
    pub offset: u64,
}

impl Session {
    /// A session with its carry buffer.
    pub fn new() -> Session {
        let carry = vec![0; CARRY_ROOM].into_boxed_slice();
        // SAFETY: pointer and length are those of the buffer; the call does not write.
        let opening = unsafe { raw::lak_session_open(carry.as_ptr(), carry.len()) };
        debug_assert_eq!(opening.number, 0, "the carry buffer is long enough");
        Session { carry, state: opening.session }
    }

    /// Feeds the session the next bytes of the line, also none.
    ///
    /// The frames are taken from the piece by [`Frames::next`], one at a time, until it answers none. Whoever stops before
    /// that feeds the rest again ([`Frames::rest`]).
    pub fn feed<'s, 'p>(&'s mut self, piece: &'p [u8]) -> Frames<'s, 'p> {
        Frames { session: self, rest: piece }
    }

    /// Drops the begun frame and the refusal; offsets count from 0 again.
    ///
    /// ```
    /// # fn main() -> Result<(), laksubinat::Error> {
    /// let mut session = laksubinat::Session::new();
    /// let mut frames = session.feed(&[0x03, 0x81, 0x00, 0x00, 0xe0, 0x03]); // an ok, then what starts no frame
    /// assert_eq!(frames.next()?.map(|ok| ok.offset), Some(0));
    /// let error = frames.next().unwrap_err();
    /// assert_eq!((error.number(), error.offset()), (2, Some(4)));
    /// assert_eq!(error.to_string(), "refused with 2: the first byte starts no size number (the frame at 4)");
    /// assert_eq!(frames.rest(), [0x03]);
    /// assert_eq!(session.feed(&[0x03, 0x81, 0x00, 0x00]).next(), Err(error)); // again, whatever is fed
    ///
    /// session.reset();
    /// assert_eq!(session.feed(&[0x03, 0x81, 0x00, 0x00]).next()?.map(|ok| ok.offset), Some(0));
    /// # Ok(())
    /// # }
    /// ```
    pub fn reset(&mut self) {
        // SAFETY: the call takes nothing.
        self.state = unsafe { raw::lak_session_reset() };
    }

    /// The length of all frames given since the opening or reset, going round from 2^64-1 to 0.
    pub fn offset(&self) -> u64 {
        self.state.offset
    }

    /// The bytes of the frame at hand that the session keeps: of one that is begun all that came; of a refused one those
    /// that settled it, none where it began in the piece that settled it.
    pub fn begun(&self) -> &[u8] {
        &self.carry[..self.state.held as usize]
    }
}

impl Default for Session {
    fn default() -> Session {
        Session::new()
    }
}

impl<'p> Frames<'_, 'p> {
    /// The next frame; none where the piece is used up.
    ///
    /// A frame may lie in the session's carry buffer, which the next call may write, so it is lent until then; an
    /// `Iterator` could not ask for that. Refused like [`read_frame`](crate::read_frame), but never with 1, with the
    /// offset of the refused frame. After a refusal each call repeats it and takes nothing, until a
    /// [reset](Session::reset).
    ///
    /// ```
    /// # fn main() -> Result<(), laksubinat::Error> {
    /// # let (mut session, piece) = (laksubinat::Session::new(), [0x03, 0x81, 0x00, 0x00]);
    /// let mut frames = session.feed(&piece);
    /// while let Some(shown) = frames.next()? {
    ///     println!("{} bytes at {}", shown.bytes.len(), shown.offset);
    /// }
    /// # Ok(())
    /// # }
    /// ```
    ///
    /// A [place](Error::place) counts from the refused frame's first byte, in whichever pieces it came:
    ///
    /// ```
    /// # fn main() -> Result<(), laksubinat::Error> {
    /// let mut session = laksubinat::Session::new();
    /// let mut frames = session.feed(&[0x03, 0x81, 0x00, 0x00, 0x03, 0x81]); // an ok, and a frame is begun
    /// while let Some(_) = frames.next()? {}
    /// let error = session.feed(&[0x00, 0xc1]).next().unwrap_err(); // c1 starts no value
    /// assert_eq!((error.number(), error.offset(), error.place()), (4, Some(4), Some(3)));
    /// assert_eq!(
    ///     error.to_string(),
    ///     "refused with 4: a value is broken, runs past its bytes or is too deep, at byte 3 of the frame at 4"
    /// );
    /// # Ok(())
    /// # }
    /// ```
    ///
    /// Two at a time are refused by the compiler:
    ///
    /// ```compile_fail,E0499
    /// # fn main() -> Result<(), laksubinat::Error> {
    /// # let (mut session, piece) = (laksubinat::Session::new(), [0x03, 0x81, 0x00, 0x00]);
    /// let mut frames = session.feed(&piece);
    /// let (first, second) = (frames.next()?, frames.next()?);
    /// println!("{first:?} {second:?}");
    /// # Ok(())
    /// # }
    /// ```
    #[allow(clippy::should_implement_trait)] // what it gives is lent, as said above
    pub fn next(&mut self) -> Result<Option<Shown<'_>>, Error> {
        let Session { carry, state } = &mut *self.session;
        let piece = self.rest;
        // SAFETY: each pointer and length are those of a slice; the carry buffer is lent to the call alone.
        let answer = unsafe { raw::lak_session_feed(*state, piece.as_ptr(), piece.len(), carry.as_mut_ptr(), carry.len()) };
        *state = answer.session;
        self.rest = &piece[answer.taken as usize..];
        let from = if answer.in_carry { &carry[..] } else { piece };
        match answer.number {
            0 => {
                let bytes = &from[..answer.length as usize];
                Ok(Some(Shown { bytes, frame: answer.frame.into(), offset: answer.offset }))
            }
            1 => Ok(None),
            number => Err(Error::of_frame(number, answer.offset, answer.place)),
        }
    }

    /// The bytes of the piece that are not taken yet; after a refusal those behind the byte that settled it.
    pub fn rest(&self) -> &'p [u8] {
        self.rest
    }
}
