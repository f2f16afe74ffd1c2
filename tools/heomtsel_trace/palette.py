"""Colours, hatches and marks of a picture."""

from __future__ import annotations

# Okabe and Ito's colours, which colour-blind readers tell apart
BLACK, ORANGE, SKY, GREEN = "#000000", "#e69f00", "#56b4e9", "#009e73"
YELLOW, BLUE, VERMILLION, PURPLE = "#f0e442", "#0072b2", "#d55e00", "#cc79a7"
GREY = "#c8c8c8"

# A hue says who uses a connection, and the hatch tells each state from all others in print without colours. Hatches are of
# lines, since dots make a drawing large. They stand in the order of a connection's life.
STATE_LOOKS = {
    "ReservedOutbound": (YELLOW, "----"),
    "UnnegotiatedOutbound": (YELLOW, "////"),
    "UnnegotiatedInbound": (YELLOW, ""),
    "InboundIdle": (SKY, "----"),
    "Inbound": (SKY, ""),
    "Duplex": (GREEN, "++++"),
    "OutboundUni": (PURPLE, "////"),
    "OutboundDupTicking": (ORANGE, "\\\\\\\\"),
    "OutboundDupExpired": (ORANGE, "||||"),
    "OutboundIdle": (ORANGE, "xxxx"),
    "Terminating": (GREY, "xxx"),
}
TEMPERATURE_LOOKS = {"hot": (VERMILLION, "////"), "warm": (ORANGE, "\\\\\\\\"), "cold": (SKY, "")}
MARK_LOOKS = {
    "fault": ("X", VERMILLION),
    "pruned": ("v", BLACK),
    "overwritten": ("s", "white"),
    "dial failed": ("o", "white"),
    "lost": ("D", ORANGE),
}
