"""One screen of a run: sections of lines, as text with colours or plain."""

from __future__ import annotations

from collections.abc import Callable
from dataclasses import dataclass, replace

from rich.text import Text

from .durations import clock, in_words
from .follow import Entry, entry_cells
from .lines import Group
from .run import Connection, Notice, Peer, PeerClass, Run
from .targets import next_edge

# Okabe and Ito's colours, which colour-blind readers tell apart; no meaning hangs on them alone
GOOD = "#009e73"
CAREFUL = "#e69f00"
BAD = "#d55e00"
QUIET = "#999999"
HEADING = "bold #56b4e9"

LIMIT_BAR = 30
TARGET_BAR = 12
CLASS_WIDTH = 11
TWO_COLUMNS_FROM = 180
SHORT_BELOW = 34
NARROWEST_ADDRESS = 9
ROWS_AT_LEAST = 2
GROUPS_SHOWN = 8
PLAIN_ROWS = 10


Cells = list[tuple[str, ...]]


@dataclass(frozen=True)
class Glyphs:
    """What bars and headings are made of."""

    full: str
    empty: str
    mark: str
    rule: str


PLAIN = Glyphs("#", ".", "|", "-")
DRAWN = Glyphs("\u2588", "\u2591", "\u2502", "\u2500")


@dataclass(frozen=True)
class View:
    """How a run is to be shown. With a height the tables have the rows that the screen leaves, else `rows` of them each."""

    width: int
    glyphs: Glyphs = PLAIN
    height: int | None = None
    order: str = "newest"
    shows_peers: bool = False
    offset: int = 0
    rows: int = PLAIN_ROWS
    keys: bool = False

    @property
    def has_two_columns(self) -> bool:
        return self.height is not None and self.width >= TWO_COLUMNS_FROM

    @property
    def is_short(self) -> bool:
        """Whether some rows have to be left out, so that the connections and the last things have their place."""
        return self.height is not None and self.height < SHORT_BELOW and not self.has_two_columns


@dataclass
class Section:
    title: str
    rows: list[Text]


def styled(*parts: str | tuple[str, str]) -> Text:
    return Text.assemble(*parts, no_wrap=True, overflow="ellipsis")


def counted(count: int, what: str) -> str:
    return f"{count} {what}" if count == 1 else f"{count} {what}s"


def bar(value: int, whole: int, length: int, glyphs: Glyphs, mark: int | None = None) -> str:
    """A bar that is full where the value reaches the whole, with a mark at a value in between."""
    filled = length if value >= whole else value * length // whole
    if value and not filled:
        filled = 1
    cells = [glyphs.full] * filled + [glyphs.empty] * (length - filled)
    if mark is not None and 0 < mark < whole:
        cells[min(length - 1, mark * length // whole)] = glyphs.mark
    return "[" + "".join(cells) + "]"


def header(run: Run) -> list[Text]:
    own = run.own or "an address that was not told"
    version = "its version not told" if run.version is None else f"trace version {run.version}"
    return [
        styled(("Heomtsel", "bold"), f" at {own}, {version}, now {clock(run.moment)}"),
        styled(f"{counted(run.events, 'event')}, {counted(run.actions, 'action')}, {ending(run)}"),
        *beside(run),
    ]


def ending(run: Run) -> str:
    if run.has_ended:
        said = "the trace has ended"
    elif run.input_has_ended:
        said = "the input ended before the trace did"
    else:
        said = "more may come"
    if run.events and not run.actions:
        said += "; no action lines (./heomtsel replay writes them)"
    return said


def beside(run: Run) -> list[Text]:
    """What the program said on standard error, where that came in too."""
    rows = []
    if run.unresolved:
        names = counted(run.unresolved, "name")
        rows.append(styled((f"{names} of the topology not looked up (tools/resolve does it)", CAREFUL)))
    if run.said is not None:
        rows.append(styled((f"the program said: {run.said}", BAD)))
    return rows


# Connections against the limits


def limits(run: Run, view: View) -> Section:
    counted, soft, hard = run.counted, run.settings.soft, run.settings.hard
    if counted >= hard:
        word, style = "full", BAD
    elif counted > soft:
        word, style = "above soft", CAREFUL
    else:
        word, style = "within the limits", GOOD
    drawn = bar(counted, hard, LIMIT_BAR, view.glyphs, soft)
    rows = [
        styled("counted      ", (drawn, style), f" {counted} of hard {hard}, soft {soft}: ", (word, style)),
        styled("accepting    ", accepting(run)),
        *listed("turned away  ", turned_away(run), view.width),
        *listed("closed       ", in_parts(run.closes, "none"), view.width),
        *listed("lost         ", in_parts(run.lost, "none"), view.width),
    ]
    if view.is_short:
        return Section("", rows)
    if run.faults:
        rows += listed("faults       ", in_parts(run.faults, "none"), view.width)
    rows.append(
        styled(f"came         {run.admitted} accepted, {run.dialed} dialed, of which {run.failed_dials} failed")
    )
    return Section("Connections against the limits", rows)


def accepting(run: Run) -> tuple[str, str]:
    times = f"pauses {run.pauses}"
    if run.pauses:
        times += f", the last for {in_words(run.last_pause)}"
    left = run.paused_until - run.moment
    if left > 0:
        return f"paused till {clock(run.paused_until)} ({in_words(left)} more); {times}", CAREFUL
    return f"open; {times}", ""


def turned_away(run: Run) -> list[str]:
    parts = in_parts(run.turn_aways, "nobody")
    return parts if run.last_turned_away is None else [*parts, f"the last {run.last_turned_away}"]


def in_parts(counts: dict[str, int], nothing: str) -> list[str]:
    told = [f"{name} {count}" for name, count in sorted(counts.items()) if count]
    return [f"{sum(counts.values())} in all", *told] if told else [nothing]


def listed(heading: str, parts: list[str], width: int) -> list[Text]:
    """The parts behind a heading, in as many rows as the width wants."""
    rows = [heading + parts[0]]
    for part in parts[1:]:
        if len(rows[-1]) + 3 + len(part) <= width:
            rows[-1] += ", " + part
        else:
            rows[-1] += ","
            rows.append(" " * len(heading) + part)
    return [styled(row) for row in rows]


# Peers against their targets


def peers(run: Run, view: View) -> Section:
    rows = []
    for peer_class in PeerClass:
        if peer_class is PeerClass.BIG and not shows_big(run, view):
            continue
        rows += peers_of(run, peer_class, view)
        if peer_class is PeerClass.ORDINARY:
            rows.append(public_roots(run, view))
    return Section("Peers against their targets", rows)


def shows_big(run: Run, view: View) -> bool:
    has_any = run.known(PeerClass.BIG) > 0 or run.targets[PeerClass.BIG].known > 0
    return has_any or (run.version == 2 and not view.is_short)


def peers_of(run: Run, peer_class: PeerClass, view: View) -> list[Text]:
    given, now = run.targets[peer_class], run.effective(peer_class)
    measures = [
        ("known", run.known(peer_class), now.known, given.known),
        ("established", run.established(peer_class), now.established, given.established),
        ("active", run.active(peer_class), now.active, given.active),
    ]
    rows = []
    for place, (name, count, target, usual) in enumerate(measures):
        heading = peer_class.value if place == 0 else ""
        said = styled(f"{heading:<{CLASS_WIDTH}}", *measure(name, count, target, view))
        if target < usual:
            left = in_words(next_edge(run.moment) - run.moment)
            said.append(f"  churn lowers {usual} for {left}", CAREFUL)
        rows.append(said)
    return rows


def measure(name: str, count: int, target: int, view: View) -> tuple[str | tuple[str, str], ...]:
    style = GOOD if count == target else CAREFUL
    drawn = bar(count, target, TARGET_BAR, view.glyphs) if target else " " * (TARGET_BAR + 2)
    word = "" if count == target else "  below" if count < target else "  above"
    return f"{name:<13}", (drawn, style), f" {count:>5} of {target:<5}", (word, style)


def public_roots(run: Run, view: View) -> Text:
    roots = run.roots
    said = styled(" " * CLASS_WIDTH, *measure("public roots", len(roots.addresses), roots.target, view))
    if roots.job is not None:
        said.append(f"  asked, question {roots.job}")
    elif roots.due > run.moment:
        said.append(f"  next question from {clock(roots.due)} on")
    return said


def groups(run: Run, view: View) -> Section:
    if view.is_short:
        satisfied = sum(is_satisfied(run, group) for group in run.groups)
        return Section("", [styled(f"local groups {satisfied} of {len(run.groups)} have as many peers as they want")])
    rows = [group_row(run, place) for place in range(min(len(run.groups), GROUPS_SHOWN))]
    if len(run.groups) > GROUPS_SHOWN:
        rows.append(styled(f"and {len(run.groups) - GROUPS_SHOWN} groups more"))
    return Section("Local groups", rows or [styled(("none", QUIET))])


def in_use(run: Run, group: Group) -> tuple[int, int]:
    """How many members are warm or hot, and how many of these hot."""
    temperatures = [run.peers[member].temperature for member in group.members if member in run.peers]
    return temperatures.count("hot") + temperatures.count("warm"), temperatures.count("hot")


def is_satisfied(run: Run, group: Group) -> bool:
    established, hot = in_use(run, group)
    return established >= group.warm and hot >= group.hot


def group_row(run: Run, place: int) -> Text:
    group = run.groups[place]
    established, hot = in_use(run, group)
    told = "told to others" if group.advertised else "kept to this node"
    return styled(
        f"group {place + 1:<4}",
        (
            f"warm or hot {established} of {group.warm}, hot {hot} of {group.hot}",
            GOOD if is_satisfied(run, group) else CAREFUL,
        ),
        f"; {counted(len(group.members), 'member')}, {told}",
    )


# Connections


def states(run: Run, view: View) -> Section:
    told = [f"{name} {count}" for name, count in run.by_state.most_common() if count > 0]
    if view.is_short:
        return Section("", listed("connections  ", [f"{len(run.connections)} in all", *told], view.width))
    rows = listed("", told, view.width) if told else [styled(("none", QUIET))]
    return Section(f"Connections by state: {len(run.connections)}", rows)


HEAT = {"hot": 0, "warm": 1, "cold": 2}


def heat_of(run: Run, connection: Connection) -> int:
    peer = run.peers.get(connection.address)
    return len(HEAT) if peer is None else HEAT[peer.temperature]


# by which connections can be sorted; of equal ones the newest goes first
ORDERS: dict[str, tuple[str, Callable[[Run, Connection], int]]] = {
    "newest": ("the newest first", lambda run, connection: 0),
    "longest": ("the longest first", lambda run, connection: connection.begun),
    "hot": ("hot peers first", heat_of),
    "faulty": ("the most troubled first", lambda run, connection: -run.troubles[connection.address]),
    "busiest": ("the busiest first", lambda run, connection: -connection.bytes_in - connection.bytes_out),
}


def connections(run: Run, view: View, rows: int) -> Section:
    said, order = ORDERS[view.order]
    every = sorted(run.connections.values(), key=lambda connection: (order(run, connection), -connection.id))
    first, shown = window(every, view, rows)
    cells: Cells = [("id", "address", "dialed by", "state", "since", "for", "peer", "troubles", "bytes in", "out")]
    cells += [connection_cells(run, connection) for connection in shown]
    title = f"Connections, {said}{which(first, len(shown), len(every))}"
    return Section(title, aligned(cells, view.width, needed=7))


def window(every: list, view: View, rows: int) -> tuple[int, list]:
    """The part of a list that is shown, and where it begins. No scrolling goes behind its last row."""
    first = max(0, min(view.offset, len(every) - rows))
    return first, every[first : first + rows]


def which(first: int, shown: int, every: int) -> str:
    return "" if shown == every else f": {first + 1} to {first + shown} of {every}"


def connection_cells(run: Run, connection: Connection) -> tuple[str, ...]:
    peer = run.peers.get(connection.address)
    return (
        str(connection.id),
        connection.address,
        connection.dialer.value,
        connection.state or "?",
        clock(connection.since),
        in_words(run.moment - connection.since),
        "-" if peer is None else peer.temperature,
        str(run.troubles[connection.address] or ""),
        str(connection.bytes_in),
        str(connection.bytes_out),
    )


# The list of peers


def peer_list(run: Run, view: View, rows: int) -> Section:
    every = sorted(
        run.peers.values(), key=lambda peer: (HEAT[peer.temperature], -peer.failures, peer.since, peer.address)
    )
    first, shown = window(every, view, rows)
    cells: Cells = [("temp", "address", "class", "since", "for", "failures", "last failure", "left alone for")]
    cells += [peer_cells(run, peer) for peer in shown]
    title = f"Peers, hot ones first{which(first, len(shown), len(every))}"
    return Section(title, aligned(cells, view.width, needed=6) if every else [styled(("none", QUIET))])


def peer_cells(run: Run, peer: Peer) -> tuple[str, ...]:
    left = peer.left_alone_until - run.moment
    return (
        peer.temperature,
        peer.address,
        peer.peer_class.value,
        clock(peer.since),
        in_words(run.moment - peer.since),
        str(peer.failures or ""),
        peer.trouble or "",
        in_words(left) + " more" if left > 0 else "",
    )


# One connection or one peer, followed


def followed(run: Run, view: View, whom: str, entries: list[Entry]) -> list[Text]:
    """What one address has to do with: the last rows that the screen takes, or all of them."""
    rows = header(run)[:2]
    peer = run.peers.get(whom)
    told = "not in the book" if peer is None else f"{peer.temperature}, {counted(peer.failures, 'failure')} in a row"
    cells: Cells = [("at", "id", "", f"{whom} ({told})")]
    cells += [entry_cells(entry) for entry in entries]
    body = aligned(cells, view.width, needed=4, cut_place=3)
    for row, entry in zip(body[1:], entries):
        if entry.is_wrong:
            row.stylize(BAD)
    heading = drawn(Section(f"The life of {whom}", body[:1]), view)
    lines = body[1:]
    if view.height is not None:
        room = max(1, view.height - len(rows) - len(heading) - view.keys)
        last = len(lines) - max(0, min(view.offset, len(lines) - room))
        lines = lines[max(0, last - room) : last]
    if not entries:
        lines = [styled(("nothing of it so far", QUIET))]
    return rows + heading + lines


def aligned(cells: Cells, width: int, needed: int, cut_place: int = 1) -> list[Text]:
    """The cells in columns: where the width does not do, as many as are needed, with those of one column cut."""
    widths = [max(len(row[place]) for row in cells) for place in range(len(cells[0]))]
    while len(widths) > needed and excess_of(widths, width) > 0:
        widths.pop()
    widths[cut_place] -= min(max(0, excess_of(widths, width)), max(0, widths[cut_place] - NARROWEST_ADDRESS))
    rows = ["  ".join(cut(cell, size) for cell, size in zip(row, widths)).rstrip() for row in cells]
    return [styled((row, QUIET if place == 0 else "")) for place, row in enumerate(rows)]


def excess_of(widths: list[int], width: int) -> int:
    return sum(widths) + 2 * (len(widths) - 1) - width


def cut(cell: str, size: int) -> str:
    return cell.ljust(size) if len(cell) <= size else cell[: size - 2] + ".."


# What is worth a look


def notices(run: Run, view: View, rows: int) -> Section:
    title = "The last things worth a look"
    last = list(run.notices)[-rows:] if rows else []
    if not last:
        return Section(title, [styled(("none", QUIET))])
    cells: Cells = [("at", "address", "what", "id", "left alone for", "till", "failures")]
    cells += [notice_cells(notice) for notice in reversed(last)]
    return Section(title, aligned(cells, view.width, needed=5))


def notice_cells(notice: Notice) -> tuple[str, ...]:
    back_off = notice.back_off
    alone = (
        ("", "", "")
        if back_off is None
        else (in_words(back_off.duration), clock(back_off.until), str(back_off.failures))
    )
    number = "" if notice.connection is None else str(notice.connection)
    return (clock(notice.moment), notice.address or "", notice.what, number, *alone)


def without_trace(run: Run, view: View) -> Section | None:
    if not run.lines_without_trace:
        return None
    last = list(run.last_without_trace)[-1 if view.is_short else 0 :]
    rows = [styled((f"line {number}: {text}", CAREFUL)) for number, text in last]
    return Section(f"Lines that are no trace: {run.lines_without_trace}", rows)


# The whole screen


def drawn(section: Section, view: View) -> list[Text]:
    if not section.title:
        return section.rows
    rule = view.glyphs.rule
    title = f"{rule * 2} {section.title} "
    return [styled((title + rule * max(0, view.width - len(title)), HEADING)), *section.rows]


def fixed_sections(run: Run, view: View) -> list[Section]:
    sections = [limits(run, view), peers(run, view), groups(run, view), states(run, view), without_trace(run, view)]
    return [section for section in sections if section is not None]


def whole(run: Run, view: View) -> list[Text]:
    """The lines of one screen: as long as it is, or as high as the view says."""
    if view.height is not None and view.keys:
        view = replace(view, height=view.height - 1)
    if view.has_two_columns:
        return in_two_columns(run, view)
    rows = header(run)
    for section in fixed_sections(run, view):
        rows += drawn(section, view)
    rows += tables(run, view, len(rows))
    return rows[: view.height]


def tables(run: Run, view: View, taken: int) -> list[Text]:
    count, last = shares_of(run, view, taken)
    listing = peer_list if view.shows_peers else connections
    return drawn(listing(run, view, count), view) + drawn(notices(run, view, last), view)


def shares_of(run: Run, view: View, taken: int) -> tuple[int, int]:
    """How many rows the table has, and how many the last things: what the one leaves the other may have."""
    if view.height is None:
        return view.rows, view.rows
    # two headings, each with the names of the columns
    left = max(2 * ROWS_AT_LEAST, view.height - taken - 4)
    wanted = len(run.peers if view.shows_peers else run.connections)
    last = min(len(run.notices), max(left // 3, left - wanted))
    return max(ROWS_AT_LEAST, left - max(last, ROWS_AT_LEAST)), max(last, ROWS_AT_LEAST)


def in_two_columns(run: Run, view: View) -> list[Text]:
    gap = 2
    left_view = replace(view, width=(view.width - gap) // 2)
    left = [row for section in fixed_sections(run, left_view) for row in drawn(section, left_view)]
    top = header(run)
    right = tables(run, left_view, len(top))
    rows = []
    for place in range(max(len(left), len(right))):
        row = left[place].copy() if place < len(left) else styled("")
        row.truncate(left_view.width, overflow="ellipsis", pad=True)
        row.append(" " * gap)
        if place < len(right):
            row.append_text(right[place])
        rows.append(row)
    return (top + rows)[: view.height]
