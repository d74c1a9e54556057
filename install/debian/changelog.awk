# Makes Debian's changelog of CHANGELOG.md: an entry for each version that has a date, with its headings and points; for a `version`
# that ends in ~dev one of what is unreleased, a second after the `date` of the newest version.
function write_point(    count, words, k, line) {
    count = split(point, words, " ")
    line = "  *"
    for (k = 1; k <= count; k++) {
        if (length(line " " words[k]) > 78) { print line; line = "   " }
        line = line " " words[k]
    }
    if (count > 0) print line
    point = ""
}
function end_version() {
    write_point()
    if (time != "") print "\n -- Kaumirde maintainers <maintainers@users.noreply.kaumirde.example>  " time "\n"
    time = ""
}
/^## / { end_version() }
function begin_version(version, moment,    command) {
    command = "LC_ALL=C date -u -R -d \"" moment "\""
    command | getline time
    close(command)
    print "fretime (" version ") unstable; urgency=medium"
}
/^## \[Unreleased\]/ && version ~ /~dev$/ { begin_version(version, date " 00:00:01") }
/^## \[[0-9]/ { begin_version(substr($2, 2, length($2) - 2), $4) }
time == "" { next }
/^### / { write_point(); print "\n  [ " $2 " ]" }
/^- / { write_point(); point = substr($0, 3) }
/^  / { point = point " " $0 }
END { end_version() }
