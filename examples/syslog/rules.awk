# What the lines of a syslog tell: a rule for each kind of event. A rule looks at `program`, at `message` or at its
# words (`word[1]` is the first), and gives `event` a name and what it happened to. A line that no rule knows
# is dropped: it is free text, and nobody could say which of its words are a name. Its time was taken already.

# The disk of a partition: errors name the one or the other. sdb1 is of sdb, nvme0n1p2 of nvme0n1.
function disk(device) {
    if (device ~ /^(nvme|mmcblk)[0-9n]+p[0-9]+$/) sub(/p[0-9]+$/, "", device)
    if (device ~ /^(sd|vd|xvd|hd)[a-z]+[0-9]+$/) sub(/[0-9]+$/, "", device)
    return device
}

# systemd starts a unit again by itself. `Started ..` would tell of each start, but some versions name the unit
# there, and others what it is for; this line names it in all.
program == "systemd" && match(message, /: Scheduled restart job/) { event("restart", substr(message, 1, RSTART - 1)) }

program == "kernel" && /I\/O error, dev / { event("disk_error", disk(behind("I/O error, dev "))) }
program == "kernel" && /I\/O error on dev / { event("disk_error", disk(behind("I/O error on dev "))) }
program == "kernel" && /EXT4-fs error \(device / { event("disk_error", disk(behind("EXT4-fs error (device "))) }
program == "kernel" && /EXT4-fs \(.*\): Remounting filesystem read-only/ { event("read_only", disk(behind("EXT4-fs ("))) }

# Logins by ssh. Where the account is no account of the host, sshd says `for invalid user`: nobody gets in by it, and
# who attacks makes up as many names as he likes, each a new symbol, so these lines are dropped. A key can't be
# guessed, so logins by a key are dropped too.
function by_password() {
    return program ~ /^sshd(-session)?$/ && word[2] ~ /^(password|keyboard-interactive\/pam)$/ && word[3] == "for"
}

by_password() && word[1] == "Failed" && word[5] == "from" { event("refused", word[4]) }
by_password() && word[1] == "Accepted" { event("accepted", word[4]) }
