# The scrub lines of a report as announcements for ExaBGP (RFC 8955, RFC 8956); those of `diff OLD NEW` as withdrawals and announcements.
function values(list, parts, i, text) {
    split(list, parts, ",")
    for (i = 1; i in parts; i++) text = text "=" parts[i] " "
    return "[ " text "]; "
}
function ranges(list, parts, ends, i, text) {
    split(list, parts, ",")
    for (i = 1; i in parts; i++) {
        split(parts[i], ends, "-")
        text = text ">=" ends[1] "&<=" ends[2] " "
    }
    return "[ " text "]; "
}
{ verb = $1 == "<" ? "withdraw" : "announce"; sub(/^[<>] /, "") }
$1 == "scrub" {
    wanted = "destination " $5 "; "
    if ($6 != "any") wanted = wanted ($5 ~ /:/ ? "next-header " : "protocol ") values($6)
    if ($7 != "any") wanted = wanted "destination-port " ranges($7)
    print verb " flow route { match { " wanted "} then { discard; } }"
}
