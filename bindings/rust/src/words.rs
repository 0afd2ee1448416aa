//! Enumerations of the C interface as Rust enums.

/// Declares an enum with the numbers of the C interface, its way back from a number, and what it says.
macro_rules! numbered {
    (
        $(#[$about:meta])*
        $name:ident {
            $($(#[$doc:meta])* $variant:ident = $number:literal => $text:literal,)*
        }
    ) => {
        $(#[$about])*
        #[derive(Clone, Copy, Debug, PartialEq, Eq, Hash)]
        #[non_exhaustive]
        pub enum $name {
            $($(#[$doc])* $variant = $number,)*
        }

        impl $name {
            /// The variants with their numbers in the C interface.
            #[cfg(test)]
            pub(crate) const NUMBERS: &'static [(&'static str, u32)] = &[$((stringify!($variant), $number),)*];

            /// The variant that has a number in the C interface.
            pub(crate) fn of(number: u32) -> Option<$name> {
                match number {
                    $($number => Some($name::$variant),)*
                    _ => None,
                }
            }
        }

        impl std::fmt::Display for $name {
            fn fmt(&self, out: &mut std::fmt::Formatter<'_>) -> std::fmt::Result {
                out.write_str(match self {
                    $($name::$variant => $text,)*
                })
            }
        }
    };
}

numbered! {
    /// Why a step of a device is refused. The device is then as before.
    Refusal {
        /// A named thing is not there.
        NoSuch = 1 => "a named thing is not there",
        /// The name, number or key lives there already.
        NumberTaken = 2 => "the name, number or key lives there already",
        /// A limit on things, numbers, keys or moves is reached.
        TooMany = 3 => "a limit on things, numbers, keys or moves is reached",
        /// The queue pair is not connected, or is so already.
        BadState = 4 => "the queue pair is not connected, or is so already",
        /// The unfinished requests reach the send depth.
        SqFull = 5 => "the unfinished requests reach the send depth",
        /// The unused receives reach the receive depth.
        RqFull = 6 => "the unused receives reach the receive depth",
        /// The completion queue has no place left for one more completion.
        CqFull = 7 => "the completion queue has no place left for one more completion",
        /// The local place is not granted, or the range is not in the region.
        BadKey = 8 => "the local place is not granted, or the range is not in the region",
        /// The message is longer than [`MAX_MESSAGE`](crate::MAX_MESSAGE).
        TooLong = 9 => "the message is too long",
        /// A request, a receive or a message in progress names the region.
        InUse = 10 => "a request, a receive or a message in progress names the region",
        /// Only a husk of the context is here: what a moved context leaves behind.
        Stopped = 11 => "only a husk of the context is here",
        /// The partner of a queue pair moves.
        PeerMoving = 12 => "the partner of a queue pair moves",
        /// The image was restored already.
        Spent = 13 => "the image was restored already",
        /// Too few pages of the device are free.
        NoPage = 14 => "too few pages of the device are free",
    }
}

numbered! {
    /// Why a responder refuses a request.
    RefusalReason {
        /// The packet is out of place or of a wrong size, or an atomic that is not aligned.
        Invalid = 1 => "out of place, of a wrong size, or an atomic that is not aligned",
        /// The range is not granted to the remote key.
        Access = 2 => "the range is not granted to the remote key",
        /// A SEND does not fit its receive.
        Length = 3 => "a SEND does not fit its receive",
    }
}

numbered! {
    /// Why a datagram has no effect.
    DropReason {
        /// The bytes are no datagram.
        Malformed = 1 => "the bytes are no datagram",
        /// No connected queue pair and no husk has the number.
        Unknown = 2 => "no connected queue pair and no husk has the number",
        /// The queue pair is in Error.
        Ended = 3 => "the queue pair is in Error",
        /// It is a request at a Paused queue pair.
        Paused = 4 => "a request at a Paused queue pair",
        /// It is a request ahead of the expected one, where that was answered already.
        NakSent = 5 => "a request ahead of the expected one, where that was answered already",
        /// It is a repeat that is not answered.
        NoRepeat = 6 => "a repeat that is not answered",
        /// It is a response that changes nothing.
        Useless = 7 => "a response that changes nothing",
        /// It is an outdated message of moving.
        Stale = 8 => "an outdated message of moving",
    }
}

numbered! {
    /// Why an expiry of the retransmission timer is not counted.
    NotCounted {
        /// The queue pair is in Error.
        Ended = 1 => "the queue pair is in Error",
        /// The queue pair is Paused.
        Paused = 2 => "the queue pair is Paused",
        /// The queue pair is Resuming.
        Resuming = 3 => "the queue pair is Resuming",
        /// The queue pair waits for the RNR timer.
        Rnr = 4 => "the queue pair waits for the RNR timer",
        /// Nothing is in flight.
        Nothing = 5 => "nothing is in flight",
    }
}

numbered! {
    /// The kind of a completion: that of a request, or of a receive.
    CompletionKind {
        /// A WRITE.
        Write = 1 => "write",
        /// A SEND.
        Send = 2 => "send",
        /// A READ.
        Read = 3 => "read",
        /// A compare-and-swap.
        CompareSwap = 4 => "cas",
        /// A fetch-and-add.
        FetchAdd = 5 => "add",
        /// A receive, of a SEND or flushed.
        Recv = 6 => "recv",
        /// A receive that a WRITE with immediate completed.
        RecvImm = 7 => "recvimm",
    }
}

numbered! {
    /// How a work request ended. The numbers are those of InfiniBand's completion statuses.
    CompletionStatus {
        /// It is done.
        Success = 0 => "success",
        /// The message did not fit its receive.
        LocalLength = 1 => "the message did not fit its receive",
        /// The queue pair had failed before.
        Flush = 5 => "flushed, since the queue pair had failed before",
        /// The partner found the request invalid.
        RemoteInvalid = 9 => "the partner found the request invalid",
        /// The partner does not grant the range.
        RemoteAccess = 10 => "the partner does not grant the range",
        /// The retries were spent.
        RetryExceeded = 12 => "the retries were spent",
        /// The waits for a receive were spent.
        RnrExceeded = 13 => "the waits for a receive were spent",
    }
}

numbered! {
    /// The state of a queue pair.
    State {
        /// It was never connected.
        Init = 1 => "Init",
        /// It is connected.
        Running = 2 => "Running",
        /// Its partner moves.
        Paused = 3 => "Paused",
        /// It moved, and its partner does not know that yet.
        Resuming = 4 => "Resuming",
        /// It has failed.
        Error = 5 => "Error",
    }
}

numbered! {
    /// Why bytes are no dump.
    FaultReason {
        /// The bytes end inside or before a field.
        Short = 1 => "the bytes end inside or before a field",
        /// The first eight bytes are not those of a dump.
        Magic = 2 => "the first eight bytes are not those of a dump",
        /// The version is not a known one.
        Version = 3 => "the version is not a known one",
        /// A text is not a name, or stands twice in its list.
        Name = 4 => "a text is not a name, or stands twice in its list",
        /// A count is over its limit.
        Count = 5 => "a count is over its limit",
        /// A value is out of its range, or breaks a rule.
        Field = 6 => "a value is out of its range, or breaks a rule",
        /// Bytes follow the last field.
        Trailing = 7 => "bytes follow the last field",
    }
}
