# Counts from a trace what `tools/watch --once` has to show of it, or with -v metrics=1 what `tools/metrics` has to tell: at
# the end, from the last line that tells of each connection and each peer. Each output line is a piece of a line of the
# screen, or a line of metrics.

function plural(count, what) {
    return (count + 0) " " what (count == 1 ? "" : "s")
}

function clock(ms,   days, said) {
    days = int(ms / 86400000)
    said = sprintf("%d:%02d:%02d", int(ms / 3600000) % 24, int(ms / 60000) % 60, int(ms / 1000) % 60)
    if (ms % 1000) said = said sprintf(".%03d", ms % 1000)
    return days ? days " d " said : said
}

function use_of(name) {
    if (name ~ /^(OutboundUni|OutboundDupTicking|OutboundDupExpired|Duplex)$/) return "in use"
    return name ~ /^(ReservedOutbound|UnnegotiatedOutbound)$/ ? "on the way" : "not in use"
}

function is_counted(name) {
    return name == "UnnegotiatedInbound" || name == "InboundIdle" || name == "Inbound" || name == "Duplex"
}

# a line whose number is misspelled is none of the trace
$1 == "now" && $2 !~ /^(0|[1-9][0-9]*)$/ { next }

$1 == "set" { setting[$2] = $3 }
$1 == "now" && $2 > moment { moment = $2 }
$1 != ">" { event = $1 }
$1 ~ /^(now|govern|accepted|dialed|bytes|closed|targets|locals|roots|bigtargets|bigs)$/ { events++ }
$1 == ">" { actions++ }
$1 == "locals" { for (place = 2; place <= NF; place++) is_ordinary[$place] = 1 }

$1 == ">" && $2 == "admit" { admitted++ }
$1 == ">" && $2 == "dial" { dials++ }
$1 == "dialed" && $3 == "failed" && $2 in last_state && last_state[$2] == "ReservedOutbound" { failed++ }
$1 == ">" && $2 == "turnaway" { turned[$3]++; all_turned++ }
$1 == ">" && $2 == "close" { closed[$4]++; all_closed++ }
$1 == ">" && $2 == "close" && $4 == "fault" { faults[$5]++ }
$1 == ">" && $2 == "pause" { pauses++ }
$1 == ">" && $2 == "close" { closed_here[$3] = 1 }
$1 == ">" && $2 == "state" && $4 == "Terminated" && !($3 in closed_here) && event != "dialed" { lost[use_of(last_state[$3])]++; all_lost++ }
$1 == ">" && $2 == "state" { last_state[$3] = $4 }
$1 == ">" && $2 == "peer" { last_change[$3] = $4 }
$1 == ">" && $2 == "peer" && $4 == "known" { came_as_big[$3] = event == "bigs"; is_ordinary[$3] = 0 }

END {
    hard = "hard" in setting ? setting["hard"] : 512
    soft = "soft" in setting ? setting["soft"] : hard < 384 ? hard : 384
    for (id in last_state)
        if (last_state[id] != "Terminated") {
            connections++
            in_state[last_state[id]]++
            counted += is_counted(last_state[id])
        }
    for (address in last_change)
        if (last_change[address] != "forgotten") {
            class = came_as_big[address] && !is_ordinary[address] ? "big" : "ordinary"
            known[class]++
            established[class] += last_change[address] == "warm" || last_change[address] == "hot"
            active[class] += last_change[address] == "hot"
        }
    if (metrics) {
        printf "events_total %d.0\nactions_total %d.0\n", events, actions
        printf "counted_connections %d.0\n", counted
        printf "accepted_total %d.0\ndialed_total %d.0\nfailed_dials_total %d.0\npauses_total %d.0\n", admitted, dials, failed, pauses
        for (name in in_state) printf "connections{state=\"%s\"} %d.0\n", name, in_state[name]
        for (cause in turned) printf "turned_away_total{cause=\"%s\"} %d.0\n", cause, turned[cause]
        for (cause in closed) printf "closed_total{cause=\"%s\"} %d.0\n", cause, closed[cause]
        for (kind in faults) printf "faults_total{kind=\"%s\"} %d.0\n", kind, faults[kind]
        for (use in lost) printf "lost_total{use=\"%s\"} %d.0\n", use, lost[use]
        printf "peers{class=\"ordinary\",temperature=\"hot\"} %d.0\n", active["ordinary"]
        printf "peers{class=\"ordinary\",temperature=\"warm\"} %d.0\n", established["ordinary"] - active["ordinary"]
        printf "peers{class=\"big ledger\",temperature=\"cold\"} %d.0\n", known["big"] - established["big"]
        exit
    }
    printf "%s, %s,\n", plural(events, "event"), plural(actions, "action")
    printf "now %s\n", clock(moment)
    printf "%d of hard %d, soft %d:\n", counted, hard, soft
    printf "Connections by state: %d \n", connections
    for (name in in_state)
        printf "%s %d\n", name, in_state[name]
    printf "%d accepted, %d dialed, of which %d failed\n", admitted, dials, failed
    printf "pauses %d\n", pauses
    if (all_turned) printf "turned away  %d in all,\n", all_turned
    for (cause in turned) printf "%s %d\n", cause, turned[cause]
    if (all_closed) printf "closed       %d in all,\n", all_closed
    for (cause in closed) printf "%s %d\n", cause, closed[cause]
    for (kind in faults) printf "%s %d\n", kind, faults[kind]
    if (all_lost) printf "lost         %d in all,\n", all_lost
    for (use in lost) printf "%s %d\n", use, lost[use]
    printf "peers ordinary %d %d %d\n", known["ordinary"], established["ordinary"], active["ordinary"]
    printf "peers big %d %d %d\n", known["big"], established["big"], active["big"]
}
