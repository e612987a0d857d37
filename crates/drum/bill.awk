# The bill of a capture, worked out without the program: a pair's index in the turn 00, 10, 11, 01 moves by one for a
# pulse up, by three for a pulse down, and by two when both lines changed.
function thousandths(n,    sign, size) {
    sign = n < 0 ? "-" : ""
    size = n < 0 ? -n : n
    return sprintf("%s%d.%03d", sign, int(size / 1000), size % 1000)
}
function floor_div(n, d,    q) {
    q = int(n / d)
    return q * d > n ? q - 1 : q
}
BEGIN { index_of[0] = 0; index_of[1] = 1; index_of[3] = 2; index_of[2] = 3 }
/^#/ || /^$/ { next }
!wheel { wheel = 1; circumference = $1; lines = $2; next }
!/^[0-9]+ [0-9]+$/ || $1 > 1000000 || $2 > 7 { next }
{
    samples++
    elapsed += $1
    place = index_of[$2 % 4]
    move = (place - last + 4) % 4
    last = place
    if (move == 1) up++
    if (move == 3) down++
    if (move == 2) double++
}
END {
    reading = up - down
    printf "samples        %d\npulses up      %d\npulses down    %d\nsignal errors  %d\n", samples, up, down, double
    printf "reading        %d\n", reading
    printf "length         %s m\n", thousandths(floor_div(reading * circumference, 4000 * lines))
    printf "elapsed        %s s\n", thousandths(int(elapsed / 1000))
}
