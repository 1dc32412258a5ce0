# Takes each line of a syslog apart, and writes the clocks. Behind this file stand the rules: for a line with a date
# they find `host`, `program` and `message`, and call `event`.
#
# Dates are seconds since 1970: with them `date -d @DATE` tells the day and the hour. A clock stands before the
# first line of each later second, whether or not a rule makes an event of that line: each line says what time it is.
# A line without a date is none of these forms, as the second line of a message of two: it is dropped.

BEGIN {
    # otherwise mawk writes whole numbers from 2^31 on, the dates after January 2038, as 2.14748e+09
    CONVFMT = OFMT = "%.0f"
    split("Jan Feb Mar Apr May Jun Jul Aug Sep Oct Nov Dec", names, " ")
    for (month in names) month_of[names[month]] = month + 0
    # the first line without a year has the one given, or else the last one in which it is at most a month ahead: in a
    # log that is followed it comes after the start
    latest = year ? utc_seconds(year, 7, 2, "12:00:00") : now - (365 / 2 - 30) * 86400
    write("delay " delay)
}

# A pipe would hold back what isn't flushed until some thousand bytes are there.
function write(line) {
    print line
    fflush()
}

# The seconds since 1970 of a time of day in UTC. The days are those of a calendar whose years begin in March.
function utc_seconds(year, month, day, time,   part, days) {
    if (month + 0 < 3) { year--; month += 12 }
    days = 365 * year + int(year / 4) - int(year / 100) + int(year / 400) + int((153 * month - 457) / 5) + day - 719469
    split(time, part, ":")
    return ((days * 24 + part[1]) * 60 + part[2]) * 60 + int(part[3])
}

# The same in the zone of the machine, or of TZ.
function local_seconds(year, month, day, time) {
    gsub(/:/, " ", time)
    return mktime(year " " month " " day " " substr(time, 1, 8))
}

function distance(one, other) { return one < other ? other - one : one - other }

# A date without a year is of the year that brings it nearest to the lines before it: on New Year's Eve the year
# turns, and a December line that comes late in January is of the old year.
function nearest_year(month, day, time,   year, try, date, nearest) {
    year = 1970 + int(latest / (365.2425 * 86400))
    nearest = local_seconds(year - 1, month, day, time)
    for (try = year; try <= year + 1; try++) {
        date = local_seconds(try, month, day, time)
        if (distance(date, latest) < distance(nearest, latest)) nearest = date
    }
    return nearest
}

# A date as 2026-11-29T02:41:56.003+01:00; the fraction is dropped, the zone may lack its colon.
function date_with_year(text,   year, month, day, time, zone, shift) {
    year = substr(text, 1, 4)
    month = substr(text, 6, 2)
    day = substr(text, 9, 2)
    time = substr(text, 12, 8)
    zone = substr(text, 20)
    sub(/^[.,][0-9]+/, "", zone)
    if (zone == "") return local_seconds(year, month, day, time)
    sub(/:/, "", zone)
    shift = (substr(zone, 2, 2) * 60 + substr(zone, 4, 2)) * 60
    return utc_seconds(year, month, day, time) - (zone ~ /^-/ ? -shift : shift)
}

# The next word of the line, which `rest` loses.
function take(   word) {
    match(rest, /^[^ ]*/)
    word = substr(rest, 1, RLENGTH)
    rest = substr(rest, RLENGTH + 1)
    sub(/^ +/, "", rest)
    return word
}

# The date at the start of `rest`, or nothing.
function take_date(   month, day) {
    if (rest ~ /^[0-9][0-9][0-9][0-9]-[0-9][0-9]-[0-9][0-9]T[0-9][0-9]:[0-9][0-9]:[0-9][0-9]/)
        return date_with_year(take())
    if (rest !~ /^[A-Z][a-z][a-z] +[0-9]+ [0-9][0-9]:[0-9][0-9]:[0-9][0-9] /) return ""
    month = month_of[take()]
    day = take()
    return month ? nearest_year(month, day, take()) : ""
}

# Behind the host stand `NAME[NUMBER]:` or `NAME:`, or by RFC 5424 the name, the number, the kind of the message
# and what is told of it in brackets, in which a `]` of a text has a backslash before it.
function take_program(   name) {
    name = take()
    if (!protocol) {
        sub(/(\[[^]]*\])?:?$/, "", name)
        return name
    }
    take(); take()
    if (!sub(/^- */, "", rest)) sub(/^(\[([^]\\]|\\.)*\])+ */, "", rest)
    sub(/^\357\273\277/, "", rest)  # a byte order mark
    return name
}

# The kernel's lines begin with the time since its start, in some logs; and rsyslog may write a line that comes
# again and again once, with the number of times.
function take_message(   words) {
    if (program == "kernel") sub(/^\[ *[0-9]+\.[0-9]+\] */, "", rest)
    times = 1
    if (rest ~ /^message repeated [0-9]+ times: \[.*\]$/) {
        split(rest, words, " ")
        times = words[3]
        sub(/^[^[]*\[ */, "", rest)
        sub(/\]$/, "", rest)
    }
    return rest
}

# A symbol of crs: bytes that it can't have become `_`, and what is longer than 64 bytes is cut.
function symbol(text) {
    gsub(/[^A-Za-z0-9_.-]/, "_", text)
    return text == "" ? "-" : substr(text, 1, 64)
}

# An event of this line: its host, one thing more, and its number among those of its second that are equal in these
# three, from 1 on. So no two entries are equal, and of a chronicle that wants number 1 a second has one line.
function event(name, argument,   key, count) {
    key = name "[" host "," symbol(argument)
    if (last_date[key] != date) number[key] = 0
    last_date[key] = date
    for (count = 0; count < times; count++) write(date " " key "," ++number[key] "]")
}

# The name that stands in the message right behind `mark`.
function behind(mark,   name) {
    name = substr(message, index(message, mark) + length(mark))
    match(name, /^[A-Za-z0-9_.-]*/)
    return substr(name, 1, RLENGTH)
}

{
    rest = $0
    sub(/\r$/, "", rest)
    protocol = sub(/^<[0-9]+>1 /, "", rest)
    sub(/^<[0-9]+>/, "", rest)
    date = take_date()
    if (date == "" || date < 0) next
    if (date > clock) {
        write("clock " date)
        clock = latest = date
    }
    host = symbol(take())
    program = take_program()
    message = take_message()
    split(message, word, " ")
}

END { if (end) write("end") }
