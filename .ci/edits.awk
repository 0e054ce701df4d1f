# What an edit file says it shows, as a line for each name: 'function NAME', 'need FUNCTION NAME', 'law FILE NAME' or 'definition NAME', then 'bodies N' and 'definitions N'. Fails, with
# the reason on a line that starts with 'fault', where a replacement has no name of its own, where two wrong bodies are of one function and do not name two of its proof's needs, where two
# wrong definitions name one law or are of one definition, where a wrong body or definition has no replacement, or where a line is none of those that are read. Definitions that have to
# change together are named together, with a comma between.
function fault(why) {
    print "fault " why
    failed = 1
    exit 1
}
function rest(line) {
    sub(/^[a-z]+: /, "", line)
    return line
}
# Names are looked for in a log by patterns, so what has a meaning of its own there is no part of a name.
function no_plain_name(line) {
    return line ~ /[].*[\\^$`]/
}
function close_name() {
    if (names > used) fault("a name in it has no replacement")
    if (pending) fault("an 'old:' in it has no 'new:'")
}
function close_body() {
    close_name()
    if (body != "" && own == "") fault("the wrong body " body " has no replacement")
    if (body != "") close_need()
    if (wrong != "" && (law == "" || definition == "")) fault("the wrong definition " wrong " has no law or no replacement")
}
# A function's wrong body names a need where it is not the only one in its file.
function close_need() {
    if (own in owners && (need == "" || !(own in needing))) fault("it has two wrong bodies of " own ", and one of them names no need")
    owners[own] = body
    if (need == "") return
    needing[own] = 1
    if ((own " " need) in needs) fault("two wrong bodies in it name the need " need " of " own)
    needs[own " " need] = 1
}
function title(line) {
    close_body()
    line = rest(line)
    if (line !~ /^[a-zA-Z0-9_]+$/) fault("a title in it is no name")
    if (line in titles) fault("it has two titles " line)
    titles[line] = 1
    return line
}
/^body: / {
    body = title($0)
    if (definitions > 0) fault("a wrong definition stands among wrong bodies")
    bodies++
    own = need = ""
    next
}
/^wrong: / {
    wrong = title($0)
    if (bodies > 0 || single != "") fault("a wrong definition stands among others that are not grouped")
    definitions++
    law = definition = ""
    next
}
/^law: / {
    if (wrong == "" || law != "") fault("a law in it stands under no 'wrong:', or is the second")
    law = rest($0)
    if (law !~ /^[A-Za-z0-9\/]+ [^ ]+$/ || no_plain_name(law)) fault("a law in it is no file and name")
    if (law in laws) fault("two wrong definitions in it name the law " law)
    laws[law] = 1
    next
}
/^need: / {
    if (body == "" || need != "") fault("a need in it stands under no 'body:', or is the second")
    need = rest($0)
    if (need !~ /^[^ ]+$/ || no_plain_name(need)) fault("a need's name in it is none")
    next
}
/^function: / {
    close_name()
    name = rest($0)
    names++
    if (name !~ /^[A-Za-z_][A-Za-z0-9_]*(::[A-Za-z_][A-Za-z0-9_]*)*$/) fault("a function's name in it is none")
    if (body == "") fault("the function " name " stands under no 'body:'")
    if (own != "" && own != name) fault("the wrong body " body " is of two functions, " own " and " name)
    own = name
    next
}
/^definition: / {
    close_name()
    name = rest($0)
    names++
    if (name !~ /[^ ]$/) fault("a definition's name in it is none")
    if (bodies > 0) fault("a wrong definition stands among wrong bodies")
    if (definition != "" && definition != name) fault("a wrong definition in it is of two definitions, " definition " and " name)
    if (wrong != "" && definition == "" && name in changed) fault("it has two wrong definitions of " name)
    changed[name] = 1
    definition = name
    if (wrong == "") single = name
    next
}
/^file: / { next }
/^old: / {
    if (pending) fault("an 'old:' in it has no 'new:'")
    pending = 1
    next
}
/^new:/ {
    if (!pending) fault("a 'new:' in it has no 'old:'")
    pending = 0
    used++
    if (used > names) fault("a replacement in it has no name")
    next
}
/./ { fault("a line of it is none that is read: " $0) }
END {
    if (failed) exit 1
    close_body()
    if (failed) exit 1
    if (names == 0) fault("it names nothing")
    if (failed) exit 1
    for (name in owners) if (!(name in needing)) print "function " name
    for (name in needs) print "need " name
    for (name in laws) print "law " name
    if (single != "") {
        print "definition " single
        definitions = 1
    }
    print "bodies " bodies + 0
    print "definitions " definitions + 0
}
