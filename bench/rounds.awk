# Of all runs, a line each: IN_FLIGHT|PROGRAM|ROUND|LOGINS|MICROSECONDS|LOST|STOLEN. Of each program at each load: the medians of
# its rounds, with least and greatest, and those of the ratios to radsecproxy's, round by round.
BEGIN { FS = "|" }
{
    key = $1 ", " $2
    if (!(key in rounds)) keys[count++] = key
    of[key] = $1
    at[key, rounds[key]++] = $3
    logins[key, $3] = $4
    micros[key, $3] = $5
    lost[key] += $6
    stolen[key, $3] = $7
}
function told(values, from, form, list, n, i, middle) {
    n = 0
    for (i = 0; i < rounds[from]; i++) list[n++] = values[from, at[from, i]]
    middle = median(list, n)
    return sprintf(form " (" form " to " form ")", middle, list[0], list[n - 1])
}
function beside(values, from, other, list, n, i, middle, less) {
    n = less = 0
    for (i = 0; i < rounds[from]; i++)
        if (values[other, at[from, i]] > 0) {
            list[n] = values[from, at[from, i]] / values[other, at[from, i]]
            less += list[n++] < 1
        }
    middle = median(list, n)
    return n ? sprintf("%.2f (%.2f to %.2f), below 1 in %d of %d", middle, list[0], list[n - 1], less, n) : "-"
}
END {
    for (k = 0; k < count; k++) {
        key = keys[k]
        print "== in flight " key ", " rounds[key] " rounds: " told(logins, key, "%d") " logins a second, " \
            told(micros, key, "%.1f") " us a login, " lost[key] " lost, taken by the host " told(stolen, key, "%.1f") " %"
        other = of[key] ", radsecproxy"
        if (key != other && other in rounds)
            print "   beside radsecproxy: rate " beside(logins, key, other) "; time " beside(micros, key, other)
    }
}
