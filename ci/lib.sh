# ci/lib.sh: how ci/edits and ci/own try their edits. They source it at the top of the repository and end with `main`.
# A runner lays out a repository of its own in TMPDIR, outside this one: the crates that it tries, with their edits in must-fail, and
# those below them. `rt must-fail` tries them there, as many at once as there are processors, or EDITS_AT_ONCE: it proves each crate
# without an edit first; each edit is then checked over the modules that this proved, and must be refused. What was refused once rt
# knows on this machine for as long as nothing changes that the edit stands on.
# One harmless edit must not be refused, so that a runner which calls everything refused is found out.
# The runner sets `runner`, its name, and `harmless`, a crate and the harmless edit of it, and has three functions:
#   lay_out CRATE            puts CRATE and what it rests on into $repo/crates, and their lines into $repo/crates.txt
#   edits_of CRATE           prints the edits, one to a line
#   name_of CRATE            prints its name in that repository
#   as_laid_out CRATE        a filter: the text of an edit of CRATE, as the files of that repository have it
# What rt said of each edit is left in target/RUNNER.log, which ci/refusals reads.

# the crates that CRATE rests on, the lowest first and itself last, one to a line
needed() { # CRATE
    awk -v want="$1" '
        { sub(/#.*/, ""); name = $1; if (name == "") next; sub(/:.*/, "", name); $1 = ""; sub(/^.*:/, ""); deps[name] = $0 }
        function add(n,   k, part, i) {
            if (seen[n]++ || !(n in deps)) return
            k = split(deps[n], part, " ")
            for (i = 1; i <= k; i++) add(part[i])
            print n
        }
        END { add(want) }' crates.txt
}

# puts CRATE and its edits into the repository; the edits' names go to $room/edits, with those of the runner before them
put() { # CRATE EDIT..
    crate=$1
    shift
    name=$(name_of "$crate")
    [ -d "$repo/crates/$name" ] || lay_out "$crate"
    mkdir -p "$repo/crates/$name/must-fail"
    for e in "$@"; do
        label=$(basename "$e")
        case $e in edits/harmless/*) label=harmless.edit ;; esac
        as_laid_out "$crate" <"$e" >"$repo/crates/$name/must-fail/$label"
        echo "$name/$label $crate/${label%.edit}" >>"$room/edits"
    done
}

# what became of each edit, by the log of rt: a line for each, and one that counts; the status is 1 if one is not as it must be
judge() { # LOG
    awk -v runner="$runner" '
        NR == FNR { shown[$1] = $2; order[++edits] = $1; next }
        # a crate that is not proved without an edit
        /^rt: [a-z_0-9]*: (the check that its must-fail edits begin with did not end well|it is not proved again)/ {
            name = $2; sub(/:$/, "", name)
            unproved[name] = 1
        }
        /^rt: [a-z_0-9]*: [0-9]+ of its [0-9]+ must-fail edits were tried by an earlier run/ {
            print runner " " $2 " " $3 " of " $6 " edits were tried by an earlier run on this machine, and nothing that they stand on has changed"
        }
        /^rt: must-fail / {
            label = $3; sub(/:$/, "", label)
            text = $0; sub(/^rt: must-fail [^ ]*: /, "", text)
            if (label in shown) said[label] = text
        }
        function cause(text,   place, law) {
            if (text !~ /^refused, as it must be: /) return ""
            sub(/^refused, as it must be: /, "", text); sub(/^note: /, "", text); sub(/^\.\//, "", text)
            if (!match(text, /^[^ ]*:[0-9]+:[0-9]+: /)) return ""
            place = substr(text, 1, RLENGTH - 2); sub(/:[0-9]+$/, "", place)
            return place (match(text, /`[^`]*`/) ? " " substr(text, RSTART, RLENGTH) : "")
        }
        END {
            for (i = 1; i <= edits; i++) {
                label = order[i]; text = said[label]; at = cause(text); name = label; sub(/\/.*/, "", name)
                calm = label ~ /\/harmless\.edit$/
                if (name in unproved) verdict = "NOT PROVED without an edit: run rt check in crates/" shown[label]
                else if (text == "") verdict = "NOT TRIED: rt said nothing of it"
                else if (at ~ /^specs\//) verdict = "BAD EDIT: what it makes is no definition, first at " at
                else if (text ~ /^refused, as it must be/) verdict = "refused" (at != "" ? ", first at " at : substr(text, length("refused, as it must be") + 1))
                else verdict = text
                if (calm && verdict ~ /^NOT REFUSED/) { verdict = "harmless, and proved as it must be"; fine++ }
                else if (calm && verdict ~ /^refused/) verdict = "REFUSED though harmless" substr(verdict, 8)
                else if (verdict ~ /^refused/) refused++
                print runner " " shown[label] ": " verdict
            }
            others = edits - refused - fine
            print runner ": " refused + 0 " edits refused, " others " not as they must be"
            exit others > 0
        }' "$room/edits" "$1"
}

# tries the edits of CRATE..; the last line counts them, and the exit status is 1 if one is not as it must be
main() { # CRATE..
    log=$PWD/target/$runner.log
    mkdir -p target
    for c in "$@"; do [ -n "$(edits_of "$c")" ] || { echo "$runner: there is no edit of $c"; return 2; }; done
    # a path without links, as rt names it
    room=$(mktemp -d) && room=$(cd "$room" && pwd -P) || return 2
    trap 'rm -rf "$room"' EXIT
    trap 'exit 1' HUP INT TERM
    repo=$room/repo
    mkdir -p "$repo/crates"
    # shellcheck disable=SC2086
    put $harmless
    # shellcheck disable=SC2046
    for c in "$@"; do put "$c" $(edits_of "$c"); done
    # rt proves a crate without an edit by itself where there are two or more
    : >"$log"
    for c in "$@"; do
        set -- "$repo/crates/$(name_of "$c")"
        [ "$(find "$1/must-fail" -name '*.edit' | wc -l)" -gt 1 ] || (cd "$1" && rt check >"$room/check" 2>&1) || {
            cat "$room/check"
            echo "$runner $c: NOT PROVED without an edit"
            return 1
        }
    done
    (cd "$repo" && TMPDIR=$room RT_JOBS=${EDITS_AT_ONCE:-} rt must-fail) >"$log" 2>&1
    judge "$log" && return
    echo "$runner: target/$runner.log has what rt said"
    return 1
}
