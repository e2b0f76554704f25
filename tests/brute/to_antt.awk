# Turns the lines of `generate cases SEED N` into crates/compared/specs/Cases.antt: each case a test that the
# definitions of `rules` must pass, all under one statement.
BEGIN {
    print "-- Made by tests/brute/to_antt.awk from what the brute force answered; not written by hand."
    print "use Rattle.std.specs.Prelude.{◌≡◌, refl, Bool, true, List, [], ◌∷◌, pos, negsuc}"
    print "use Rattle.rules.specs.Tests.{all}"
    print "use Rattle.compared.specs.Compare.{lent, cleared, checked, ran, listed}"
    print ""
    print "abbrev pub cases : List Bool"
    print "cases ="
}
function bytes(s,    a, n, i, out) {
    n = split(s, a, " "); out = "("
    for (i = 1; i <= n; i++) out = out a[i] " ∷ "
    return out "[])"
}
function weights(s,    a, n, i, out) {
    n = split(s, a, " "); out = "("
    for (i = 1; i <= n; i++) out = out (a[i] < 0 ? "negsuc " (-a[i] - 1) : "pos " a[i]) " ∷ "
    return out "[])"
}
{
    n = split($0, f, "|")
    for (i = 1; i <= n; i++) { sub(/^ */, "", f[i]); sub(/ *$/, "", f[i]) }
    split(f[2], size, " ")
    l = "(lent " size[1] " " size[2] " " weights(f[3]) " " bytes(f[4]) ")"
    if (f[1] == "clear") { split(f[5], r, " "); line = "cleared " l " " r[1] " " weights(f[6]) " " bytes(f[7]) }
    else if (f[1] == "check") { split(f[5], r, " "); line = "checked " l " " r[1] " " r[2] }
    else if (f[1] == "run") { split(f[7], r, " "); line = "ran " l " " bytes(f[5]) " " bytes(f[6]) " " r[1] " " r[2] " " weights(f[8]) " " bytes(f[9]) " " bytes(f[10]) }
    else if (f[1] == "list") { split(f[6], r, " "); line = "listed " l " " bytes(f[5]) " " r[1] " " r[2] " " r[3] " " bytes(f[7]) }
    else { print "to_antt: no such call: " f[1] > "/dev/stderr"; exit 1 }
    print "    " line " ∷"
    count++
}
END {
    print "    []"
    print ""
    print "-- THE DEFINITIONS AGREE WITH THE BRUTE FORCE ON " count " CASES"
    print "pub cases_agree : all (λ b. b) cases ≡ true"
    print "unfolding cleared checked ran listed"
    print "cases_agree = refl"
}
