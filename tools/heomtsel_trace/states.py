"""What the names of a connection's states say of it (docs/CONNECTIONS.md)."""

from __future__ import annotations

# those that the hard and soft limits speak of: shaking hands after an accept, in the other side's use, or kept for it
COUNTED = frozenset({"UnnegotiatedInbound", "InboundIdle", "Inbound", "Duplex"})

# those in which this node uses the connection
USED = frozenset({"OutboundUni", "OutboundDupTicking", "OutboundDupExpired", "Duplex"})

# those in which its peer fails where the connection goes: this node uses it, dials, or shakes hands after a dial
FAILS_ITS_PEER = USED | {"ReservedOutbound", "UnnegotiatedOutbound"}
