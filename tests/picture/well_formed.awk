# Is the drawing well formed? Every tag has the shape that XML asks for, tags are nested, there is one outermost, and the text between them holds no `<`,
# `>` or `&`. No script and nothing from elsewhere. Exit status 1 otherwise.
function wrong(what) { print "line " NR ": " what; bad = 1; exit 1 }

function tag(t) {
    if (t ~ /^<\/[a-z]+>$/) {
        if (depth == 0 || t != "</" open[depth] ">") wrong("closes nothing: " t)
        depth--
        return
    }
    if (t !~ /^<[a-z]+( [a-zA-Z-]+="[^"<>&]*")*\/?>$/) wrong("no tag: " t)
    name = t
    sub(/^</, "", name)
    sub(/[ \/>].*$/, "", name)
    if (name !~ /^(svg|rect|path|text|title|g)$/) wrong("not drawn here: " name)
    if (depth == 0 && outermost++) wrong("a second outermost tag")
    if (t !~ /\/>$/) open[++depth] = name
}

{
    rest = $0
    while (match(rest, /<[^>]*>/)) {
        before = substr(rest, 1, RSTART - 1)
        t = substr(rest, RSTART, RLENGTH)
        rest = substr(rest, RSTART + RLENGTH)
        if (before ~ /[<>&]/ || (depth == 0 && before != "")) wrong("text: " before)
        tag(t)
    }
    if (rest ~ /[<>&]/ || (depth == 0 && rest != "")) wrong("text: " rest)
}

END { if (!bad && (depth != 0 || outermost != 1)) { print "the drawing does not end"; exit 1 } }
