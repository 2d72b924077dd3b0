# A row for each kind of call, and the bars of this hub to the file named `bars`. A line has, five times over (validity, refused, Rust
# with handle = place, Rust, ours): instructions, calls, the kind. The kind may have spaces, so the fields are found by the line's length.
{
    step = NF / 5
    kind = $3
    for (i = 4; i <= step; i++) kind = kind " " $i
    calls = $2
    valid = $1 / calls
    refused = $(step + 1) / calls
    place = $(2 * step + 1) / calls
    rust = $(3 * step + 1) / calls
    whole = $(4 * step + 1) / calls
    handler = whole - refused
    printf "| %s | %.0f | %.0f | %.0f | %.0f | %.0f | %.2f | %.0f | %.2f |\n", kind, whole, valid, refused - valid, handler, rust, handler / rust, place, handler / place
    if (kind != "mix" && handler / rust > worst) {
        worst = handler / rust
        name = kind
    }
}

# The mix is the last line.
END {
    printf "| %s: the mix, times the Rust's | 1.0 | %.2f (with the boundary %.2f) |\n", hub, handler / rust, (whole - valid) / rust >>bars
    printf "| %s: the dearest kind, times the Rust's | 1.5 | %.2f (%s) |\n", hub, worst, name >>bars
    if (hub == "classroom") printf "| %s: validation | 2500 | %.0f |\n", hub, valid >>bars
    if (hub == "large") printf "| %s: validation | 6000 | %.0f |\n", hub, valid >>bars
}
