# Makes the tables that compare.sh prints, in Markdown, of these lines:
#     time ENGINE WHAT PIXELS GRID PICTURE NANOSECONDS [SETTING]
#     row ENGINE WHAT PIXELS GRID PICTURE COUNT ..
# Where an engine has several settings, that with the shortest round stands for it.

function shown(key, form) {
    form = shortest[key] < 1000 ? "%.1f" : "%.0f"
    return sprintf(form " (" form ")", shortest[key], median[key])
}

# The shortest round of a setting, and the middle one.
function reduce(engine, key, setting, at, many, i, j, value) {
    many = split(times[at], sorted, " ")
    for (i = 2; i <= many; i++) {
        value = sorted[i] + 0
        for (j = i - 1; j > 0 && sorted[j] + 0 > value; j--)
            sorted[j + 1] = sorted[j]
        sorted[j + 1] = value
    }
    key = engine " " key
    if (!(key in shortest) || sorted[1] + 0 < shortest[key]) {
        shortest[key] = sorted[1]
        median[key] = (sorted[int((many + 1) / 2)] + sorted[int(many / 2) + 1]) / 2
    }
}

# How far the samples of both engines' leaving rows lie apart at most.
function difference(key, unit, many, i, apart, most) {
    unit = key ~ /8 [0-9]+ [a-z]+$/ ? 257 : 1
    many = split(row["ours " key], ours, " ")
    if (many == 0 || many != split(row["theirs " key], theirs, " "))
        return "not compared"
    for (i = 1; i <= many; i++) {
        apart = ours[i] - theirs[i]
        apart = (apart < 0 ? -apart : apart) / unit
        most = apart > most ? apart : most
    }
    return (most + 0) " of " 65535 / unit
}

function ratio(key, value) {
    value = shortest["ours " key] / shortest["theirs " key]
    return sprintf(value < 0.01 ? "%.5f" : "%.2f", value)
}

# What Little CMS takes with as many grid points as it chooses by itself.
function chosen(part, key) {
    key = "theirs chosen " part[2] " " part[3] " " part[4]
    return key in shortest ? shown(key) : "the same"
}

function line(key, part) {
    split(key, part, " ")
    printf "| %s | %s |", part[2], part[3]
    if (part[4] != "-")
        printf " %s |", part[4]
    printf " %s | %s | %s |", shown("ours " key), shown("theirs " key), ratio(key)
    if (part[4] != "-")
        printf " %s |", difference(key)
    if (part[1] == "link")
        printf " %s |", chosen(part)
    print ""
}

function table(what, title, columns, i) {
    print "\n" title "\n\n" columns
    gsub(/[^|]+/, "---", columns)
    print columns
    for (i = 1; i <= keys; i++)
        if (index(order[i], what " ") == 1)
            line(order[i])
}

$1 == "time" {
    key = $3 " " $4 " " $5 " " $6
    at = $2 SUBSEP key SUBSEP $8
    times[at] = times[at] " " $7
    if ($2 == "ours" && !(key in known)) {
        known[key] = 1
        order[++keys] = key
    }
}

$1 == "row" {
    key = $2 " " $3 " " $4 " " $5 " " $6
    $1 = $2 = $3 = $4 = $5 = $6 = ""
    row[key] = $0
}

END {
    for (at in times) {
        split(at, part, SUBSEP)
        reduce(part[1], part[2], part[3], at)
    }
    lattice = "| pixels | grid points | this engine | Little CMS | ratio |"
    picture = "| pixels | grid points | picture | this engine | Little CMS | ratio | largest difference |"
    table("link", "Rows through a link, nanoseconds a pixel:", picture " Little CMS, grid points of its choice |")
    table("direct", "Rows directly through curves, a lattice and curves, nanoseconds a pixel:", picture)
    table("bake", "Filling a lattice through curves, a lattice and curves, nanoseconds a node:", lattice)
    table("open", "Opening a profile in memory, nanoseconds:", lattice)
}
