# Reads what list prints; shows each line whose number or line is not what its name wants, and counts.
{
    split($1, a, ",want="); n = split($1, p, ",want="); seen[$2]++
    if (n < 2) { free++; next }
    m = split(p[n], w, "@"); known++
    if (w[1] != $2 || (m == 2 && w[2] != $3)) { wrong++; print }
}
END {
    printf "%d messages, %d with a wanted answer, %d otherwise answered; numbers:", NR, known, wrong + 0
    for (i = 0; i <= 22; i++) if (i in seen) printf " %d:%d", i, seen[i]
    print ""; exit wrong > 0
}
