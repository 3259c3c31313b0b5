//! The information elements that have a name (IANA, "IPFIX Information Elements"), and how their values are read.

#[derive(Clone, Copy, PartialEq)]
pub struct Element {
    pub pen: u32,
    pub number: u16,
}

/// How the octets of a value are read.
#[derive(Clone, Copy, PartialEq)]
pub enum Kind {
    /// A number, with its full width in octets.
    Unsigned(usize),
    Seconds,
    Milliseconds,
    Ipv4,
    Ipv6,
    Mac,
    Octets,
}

const U8: Kind = Kind::Unsigned(1);
const U16: Kind = Kind::Unsigned(2);
const U32: Kind = Kind::Unsigned(4);
const U64: Kind = Kind::Unsigned(8);

impl Element {
    /// The element's name in the registry, if it is known here.
    pub fn name(self) -> Option<&'static str> {
        Some(self.registered()?.0)
    }

    pub fn kind(self) -> Kind {
        self.registered().map_or(Kind::Octets, |(_, kind)| kind)
    }

    fn registered(self) -> Option<(&'static str, Kind)> {
        if self.pen != 0 {
            return None;
        }
        Some(match self.number {
            1 => ("octetDeltaCount", U64),
            2 => ("packetDeltaCount", U64),
            3 => ("deltaFlowCount", U64),
            4 => ("protocolIdentifier", U8),
            5 => ("ipClassOfService", U8),
            6 => ("tcpControlBits", U16),
            7 => ("sourceTransportPort", U16),
            8 => ("sourceIPv4Address", Kind::Ipv4),
            9 => ("sourceIPv4PrefixLength", U8),
            10 => ("ingressInterface", U32),
            11 => ("destinationTransportPort", U16),
            12 => ("destinationIPv4Address", Kind::Ipv4),
            13 => ("destinationIPv4PrefixLength", U8),
            14 => ("egressInterface", U32),
            16 => ("bgpSourceAsNumber", U32),
            17 => ("bgpDestinationAsNumber", U32),
            23 => ("postOctetDeltaCount", U64),
            24 => ("postPacketDeltaCount", U64),
            27 => ("sourceIPv6Address", Kind::Ipv6),
            28 => ("destinationIPv6Address", Kind::Ipv6),
            44 => ("sourceIPv4Prefix", Kind::Ipv4),
            45 => ("destinationIPv4Prefix", Kind::Ipv4),
            56 => ("sourceMacAddress", Kind::Mac),
            58 => ("vlanId", U16),
            60 => ("ipVersion", U8),
            61 => ("flowDirection", U8),
            132 => ("droppedOctetDeltaCount", U64),
            133 => ("droppedPacketDeltaCount", U64),
            136 => ("flowEndReason", U8),
            150 => ("flowStartSeconds", Kind::Seconds),
            151 => ("flowEndSeconds", Kind::Seconds),
            152 => ("flowStartMilliseconds", Kind::Milliseconds),
            153 => ("flowEndMilliseconds", Kind::Milliseconds),
            210 => ("paddingOctets", Kind::Octets),
            375 => ("originalFlowsPresent", U64),
            _ => return None,
        })
    }
}
