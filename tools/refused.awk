# Judges the wrong readers of one edit, for tools/refused, which says what an edit is:
#     awk -v crate=CRATE -v label=LABEL [-v names=1] -f tools/refused.awk kind=source FILE.. kind=edit EDIT kind=log [tried=1 LOG]
# Prints a line for each wrong reader, which starts with 'ok' or 'FAILED', and 'FAILED' for a change that has none. With names=1
# it prints the functions whose proofs are to refuse the edit, or nothing if a law's is.

BEGIN { readers = 0 }

function fails(text) { print "FAILED: " crate "/" label ": " text }

# The source, line by line: the function that a line is in, and whether it is of its contract or its body.
kind == "source" {
    if (FNR == 1) {
        path = substr(FILENAME, length("crates/" crate "/") + 1)
        module = substr(path, 5, length(path) - 7)
        gsub("/", "::", module)
        module = module == "lib" || module == "main" ? "" : module "::"
        type = inside = ""
        attributes = 0
    }
    if (inside == "" && /^ *(pub(\(crate\))? )?(extern "C" )?fn [a-z]/) {
        indent = $0
        sub(/[^ ].*/, "", indent)
        inside = $0
        sub(/^ *(pub(\(crate\))? )?(extern "C" )?fn /, "", inside)
        sub(/[^a-z0-9_].*/, "", inside)
        inside = module type inside
        part = "contract"
    } else if (/^impl /) {
        type = $2
        sub(/<.*/, "", type)
        type = type "::"
    } else if ($0 == "}" && inside == "")
        type = ""
    line[path, FNR] = $0
    lines[path] = FNR
    function_at[path, FNR] = about[path, FNR] = inside
    if (inside == "" && /^ *#\[/) attributes++
    else {
        while (attributes) about[path, FNR - attributes--] = inside
    }
    part_at[path, FNR] = part
    if ($0 == indent "{" || part == "contract" && / \{$/) part = "body"
    if ($0 == indent "}") inside = ""
}

kind == "edit" && /^# wrong reader / {
    readers++
    text = substr($0, 16)
    end = index(text, ": ")
    text = substr(text, 1, end - 1)
    at = index(text, " of ")
    if (!end || !at) ill[readers] = 1
    name[readers] = substr(text, 1, at - 1)
    what[readers] = substr(text, at + 4)
    at = index(what[readers], ", refused by ")
    if (at) {
        refuser[readers] = substr(what[readers], at + 13)
        what[readers] = substr(what[readers], 1, at - 1)
    }
}

kind == "edit" && /^file: / { path = substr($0, 7) }

# Where a change is: its text is looked for in what the changes above it have left.
kind == "edit" && /^old: / {
    old = substr($0, 6)
    hit = 0
    for (i = 1; i <= lines[path]; i++) if (index(line[path, i], old)) hit = i
    place = hit ? function_at[path, hit] : ""
    if (place == "") {
        place = path
        loose[readers] = 1
    } else if (part_at[path, hit] == "contract")
        contract[readers] = 1
    if (place in changer && changer[place] != readers) shared[readers] = place
    changer[place] = readers
    if (!((readers, place) in changed)) places[readers]++
    changed[readers, place] = 1
}

kind == "edit" && /^new:/ && hit {
    new = $0
    sub(/^new: ?/, "", new)
    at = index(line[path, hit], old)
    line[path, hit] = substr(line[path, hit], 1, at - 1) new substr(line[path, hit], at + length(old))
}

# Whether a message is of a failed fact: two sides differ, a goal does not follow or is not found, an equation says nothing of
# it, or equations leave a part of it open. Other messages only say that a proof no longer fits the code: no such goal, no
# such field, a fact that is cited was not admitted.
function is_fact(message) {
    if (message ~ /(has no `|is not in scope|was not admitted|that can be named)/) return 0
    return message ~ /the two (types|values|sides|indices) (are|differ|first differ) / || message ~ /^expected type / ||
        message ~ /lands at index .* but the expected type / || message ~ /^computed as a goal is, one side reads / ||
        message ~ /^`(omega|search|grind|cc|simp|assumption)`: / || message ~ /^`rw`: no occurrence of / ||
        message ~ /^give a proof of that as the last argument, `rw / || message ~ /^list the missing equation /
}

# An error of the proof of a function, or of a law.
kind == "log" && /^(\.\/)?proofs\/[^ ]*\.antt:[0-9]+:[0-9]+: error: `/ {
    at = index($0, ": error: `")
    message = substr($0, at + 10)
    file = substr($0, 1, at - 1)
    sub(/^(\.\/)?proofs\//, "", file)
    sub(/:[0-9]+:[0-9]+$/, "", file)
    fact = substr(message, 1, index(message, "`: ") - 1)
    message = substr(message, length(fact) + 4)
    if (!is_fact(message)) next
    written = file
    if (!sub(/\/(Answers|Invariants|Proof)\.antt$/, "", file)) {
        sub(/\.antt$/, "", file)
        refused[file "." fact] = 1
        next
    }
    spec = file
    sub(/.*\//, "", spec)
    gsub("/", "::", file)
    # The last part of a proof by hand, FUNCTION_spec, fits its facts to the shape of the code and does not count.
    if (written ~ /Proof\.antt$/ && fact == spec "_spec") next
    refused[file] = 1
}

# Whether a function's proof has an answer of its own for a goal.
function is_answered(place, goal,    file, text) {
    file = place
    gsub("::", "/", file)
    file = "crates/" crate "/proofs/" file "/Answers.antt"
    if (!(file in read)) {
        read[file] = 1
        while ((getline text < file) > 0) if (text ~ /^(pub )?[^ ]+ : /) {
            sub(/^pub /, "", text)
            sub(/ .*/, "", text)
            answers[file, text] = 1
        }
        close(file)
    }
    return (file, goal) in answers
}

# A goal that is false at values which the facts known there allow, or one that the tactics do not find and that has no answer.
kind == "log" && /^note: src\/[^ ]*\.rt:[0-9]+:[0-9]+: it is not proved that / {
    split(substr($2, 1, length($2) - 1), at_place, ":")
    place = about[at_place[1], at_place[2]]
    goal = $0
    sub(/^.* \(`/, "", goal)
    sub(/`\).*/, "", goal)
    if (place != "" && (/; the facts known there allow values at which / || /`\)(;|$)/ && !is_answered(place, goal))) refused[place] = 1
}
kind == "log" && /^fn .*: no proof: .*`search` did not prove `/ {
    file = substr($2, length(crate) + 3)
    sub(/:$/, "", file)
    refused[file] = 1
}

# What is wrong with a wrong reader, or nothing.
function fault(r,    i, n, part) {
    if (r in ill) return "is not named as `# wrong reader NAME of FUNCTION: what it does`"
    if (r in shared) return shared[r] " is changed for another one too"
    n = split(what[r], part, ", ")
    if (n != places[r]) return "changes not what it names"
    for (i = 1; i <= n; i++) if (!((r, part[i]) in changed)) return "does not change " part[i]
    if ((r in loose || r in contract) && (readers > 1 || name[r] != label)) return "changes what other proofs see, and does not stand alone"
    if (r in loose && !(r in refuser)) return "does not say whose proof refuses it"
    if (!(r in loose) && r in refuser) return "is to be refused by its own function"
    if (!tried) return "was not tried: there is no log"
    if (r in loose) n = split(refuser[r], part, ", ")
    for (i = 1; i <= n; i++) if (!(part[i] in refused)) return "no fact of " part[i] " failed"
    return ""
}

END {
    if (names) {
        for (r = 1; r <= readers; r++) {
            n = split(r in refuser ? refuser[r] : what[r], proof, ", ")
            for (i = 1; i <= n; i++) {
                if (index(proof[i], ".")) exit
                asked[proof[i]] = 1
            }
        }
        for (i in asked) print crate "::" i
        exit
    }
    if (!readers || places[0]) fails("a change has no wrong reader above it")
    for (r = 1; r <= readers; r++) {
        wrong = fault(r)
        if (wrong == "") print "ok: " name[r]
        else fails(name[r] ": " wrong)
    }
}
