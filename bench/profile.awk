# The functions of a part that callgrind or count.c wrote, with their own instructions in one call, most first to be sorted. A line with a
# place and a cost belongs to the function named last; the one after `calls=` is the cost of what is called, and is passed over.
/^fn=/ { name = substr($0, 4) }
/^calls=/ { getline; next }
/^[0-9+*-]/ && NF == 2 { own[name] += $2; total += $2 }

END {
    for (name in own)
        if (own[name] * 100 >= total) printf "%8.0f  %s\n", own[name] / calls, name
}
