# A row for each kind of call, and one for the validity test; and the bar of growth to the file named `bars`. A line has the list's
# length, then three times (validity, refused, ours): instructions, calls, the kind.
function row(kind,    a, b, c, d, before, latest) {
    a = cost[kind, 8]; b = cost[kind, 16]; c = cost[kind, 32]; d = cost[kind, 64]
    before = (c - b) / 16
    latest = (d - c) / 32
    printf "| %s | %.0f | %.0f | %.0f | %.0f | %.1f | %.1f | %.1f |\n", kind, a, b, c, d, (b - a) / 8, before, latest
    if (latest > before * 1.05) steeper = steeper "; " kind
}

{
    part = (NF - 1) / 3
    kind = $4
    for (i = 5; i <= 1 + part; i++) kind = kind " " $i
    if (!(kind in seen)) order[++kinds] = kind
    seen[kind] = 1
    cost[kind, $1] = ($(2 + 2 * part) - $(2 + part)) / $3
    if (kind !~ /one group/) cost["validation", $1] = $2 / $3
}

END {
    row("validation")
    for (i = 1; i <= kinds; i++) row(order[i])
    if (!steeper) steeper = "; none"
    printf "| calls that grow faster than the list | none | %s |\n", substr(steeper, 3) >>bars
}
