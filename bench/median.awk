# The median of list[0], ..., list[count - 1], the upper one of two, and '-' where there is none. The list stands in order then.
function median(list, count, i, j, x) {
    for (i = 1; i < count; i++) {
        x = list[i]
        for (j = i; j > 0 && list[j - 1] > x; j--) list[j] = list[j - 1]
        list[j] = x
    }
    return count ? list[int(count / 2)] : "-"
}
