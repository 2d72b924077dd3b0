# A row for each kind of call that looks for a key in a table. A line has how many keys the table has, then three times (refused, Rust,
# ours): instructions, calls, the kind.
{
    part = (NF - 1) / 3
    kind = $4
    for (i = 5; i <= 1 + part; i++) kind = kind " " $i
    if (!(kind in whole)) order[++kinds] = kind
    whole[kind] = whole[kind] sprintf(" %.0f |", $(2 + 2 * part) / $3)
    handler[kind] = handler[kind] sprintf(" %.0f |", ($(2 + 2 * part) - $2) / $3)
    rust[kind] = rust[kind] sprintf(" %.0f |", $(2 + part) / $3)
}

END {
    for (i = 1; i <= kinds; i++) printf "| %s |%s%s%s\n", order[i], whole[order[i]], handler[order[i]], rust[order[i]]
}
