# Of one run, as bench/load prints it: its figures, how much the host took, and the medians of the quiet seconds, also by the
# quarters of the run. The figures go to the file `runs`, too, behind `label`, which says whose they are.
BEGIN { n = seen = 0 }
/^second/ {
    stolen += $4
    if (seen++ && $4 < 2) { rate[n] = $2 + 0; time[n] = $3 + 0; when[n++] = seen }
    next
}
/^in flight/ { logins = $4; lost = $12 }
/^processor time/ { spent = $3 }
{ print }
END {
    if (seen < 2) { print "too short a run"; exit }
    printf "%s|%s|%s|%s|%.1f\n", label, logins, spent, lost, stolen / seen >> runs
    for (i = at = 0; i < 4; i++) {
        for (m = 0; at < n && when[at] <= seen * (i + 1) / 4; at++) quarter[m++] = rate[at]
        quarters = quarters " " median(quarter, m)
    }
    printf "taken by the host %.1f %%; %d quiet seconds of %d\n", stolen / seen, n, seen - 1
    middle = median(rate, n)
    print "logins of a quiet second: least " (n ? rate[0] : "-") ", median " middle ", most " (n ? rate[n - 1] : "-") \
        "; median time " median(time, n) " us"
    print "medians by quarters:" quarters
}
