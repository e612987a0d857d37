# The bill of a capture, worked out without the program. A pair's index in the turn 00, 10, 11, 01 moves the shaft's place
# by one, and pulses are differences of heights; both lines at once move it by two and count none.
# Endless counters and rotary evaluations only; a rotary evaluation's code is its pulses for a line of the encoder.
function floor_div(n, d,    q) {
    q = int(n / d)
    return q * d > n ? q - 1 : q
}
function thousandths(n,    sign, size) {
    sign = n < 0 ? "-" : ""
    size = n < 0 ? -n : n
    return sprintf("%s%d.%03d", sign, int(size / 1000), size % 1000)
}
function byte(i,    pair) {
    pair = tolower(substr(record, 2 * i + 1, 2))
    return 16 * (index("0123456789abcdef", substr(pair, 1, 1)) - 1) + index("0123456789abcdef", substr(pair, 2, 1)) - 1
}
function number(i,    n) {
    n = ((byte(i) * 256 + byte(i + 1)) * 256 + byte(i + 2)) * 256 + byte(i + 3)
    return n < 2147483648 ? n : n - 4294967296
}
function height(p) {
    if (inverted) p = 3 - p
    if (evaluation == 1) return floor_div(p + 3, 4)
    if (evaluation == 2) return floor_div(p + 1, 2)
    return p
}
BEGIN { index_of[0] = 0; index_of[1] = 1; index_of[3] = 2; index_of[2] = 3 }
/^#/ || /^$/ { next }
!wheel && /^record / { record = record $2; next }
!wheel {
    wheel = 1
    circumference = $1
    lines = $2
    evaluation = byte(25)
    inverted = byte(29)
    load = number(18)
    if (byte(3) != 0 || evaluation == 0) {
        print "not worked out"
        exit
    }
    next
}
!/^[0-9]+ [0-9]+$/ || $1 > 1000000 || $2 > 7 { next }
{
    samples++
    elapsed += $1
    move = (index_of[$2 % 4] - place % 4 + 8) % 4
    if (move == 2) double++
    before = height(place)
    place += move == 3 ? -1 : move
    if (move != 2) pulse = height(place) - before
    else pulse = 0
    if (pulse > 0) up++
    if (pulse < 0) down++
}
END {
    if (!wheel || byte(3) != 0 || evaluation == 0) exit
    reading = load + up - down
    printf "samples        %d\npulses up      %d\npulses down    %d\nsignal errors  %d\n", samples, up, down, double
    printf "reading        %d\n", reading
    printf "length         %s m\n", thousandths(floor_div(reading * circumference, 1000 * evaluation * lines))
    printf "elapsed        %s s\n", thousandths(int(elapsed / 1000))
}
