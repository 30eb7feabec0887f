# The statements of crates/pledge/proofs/Pledge.antt or Inner.antt: a line `is WORD CRATE NAME` for each, where WORD is Offered,
# OfferedLent or Determined, and a line `bad WHAT` for each thing that is wrong.
#
# A statement is the whole type of a `pub` declaration at the left edge that its definition follows, and says word for word the one
# thing about one call, under the name by which one `use` line brings in that call. Whatever could give its words another meaning is
# refused: a second binding of such a name, a word of Offered.antt that is bound here or brought from elsewhere, and every line that is
# neither a `use` line nor a declaration or a clause of one (a section would put an assumption before what it holds).

function bad(what) { print "bad", what }
function cut(text) { return length(text) > 100 ? substr(text, 1, 100) " ..." : text }

# the call that a whole type is the statement of, or nothing
function call(type,    word, x) {
    word = type; sub(/ .*/, "", word)
    x = type; sub(/^[^ ]* /, "", x); sub(/\..*/, "", x)
    if (!(x in of) || !(word in brought)) return ""
    if (word == "OfferedLent") return type == word " " x ".ended (λ M 𝓤. " x ".clauses)" ? of[x] : ""
    return type == word " " x ".Kinds.ps " x ".Kinds.r " x ".Reads.Asked " x ".Reads.Learnt" ? of[x] : ""
}

# a `use` line that brings in the module of a call under a name: which call
function bring(path, name,    crate) {
    sub(/^Rattle\./, "", path)
    crate = path; sub(/\..*/, "", crate)
    sub(/^[^.]*\.(proofs|specs\.contracts)\./, "", path); gsub(/\./, "::", path)
    if (name in of) { bad(name " is brought in twice, for " of[name] " and for " crate " " path); twice[of[name]] = 1 }
    of[name] = crate " " path
}

# a declaration: its name, once
function declare(name, i) {
    if (name in declared) bad(name " is declared twice")
    declared[name] = i
}

# reads an item: a line at the left edge with those that go on from it
function read_item(i, text,    w, k, j) {
    k = split(text, w, /[ (){},;]+/)
    for (j = 1; j <= k; j++) { bare[w[j]]++; if (w[j] ~ /^Rattle(\.[^.]*)?$/) bad("the name of a crate is bound: " cut(text)) }
    if (text ~ /^use Rattle\.[a-z_]+\.(proofs|specs\.contracts)\.[A-Za-z0-9_.]+ as [^ ]+$/) bring(w[2], w[4])
    else if (text ~ imports) {
        imported++
        for (j = 3; j <= k; j++) if (w[j] == "as") bad("a name of Offered.antt is changed: " cut(text)); else brought[w[j]] = 1
    }
    else if (text ~ /^use /) return
    else if (text ~ /^pub [^ ]+ : /) { declare(w[2], i); public[i] = w[2] }
    else if (text ~ /^[^ ]+ : /) declare(w[1], i)
    else if (text !~ /^unfolding / && !(w[1] in declared)) bad("neither a use line nor a declaration: " cut(text))
}

# reads an item that has a word of Offered.antt and is not its import: it is a statement, with the word at its head alone
function read_statement(i, text,    type, word) {
    type = text; sub(/^pub [^ ]+ : /, "", type)
    if (!(i in public) || type !~ /^(Offered|OfferedLent|Determined) / || type ~ / .*(Offered|Determined)/) {
        bad("a word of Offered.antt in what is no statement: " cut(text)); unsound = 1
    }
    else if (index(item[i + 1] " ", public[i] " = ") != 1) bad(public[i] " is not followed by its definition")
    else if (call(type) == "") bad(public[i] " is not the whole statement of a call: " type)
    else { word = type; sub(/ .*/, "", word); about[i] = call(type); says[i] = word }
}

BEGIN { imports = "^use Rattle\\.pledge\\.proofs\\.Offered\\.\\{[^{}]*\\}$" }
/^ *--/ || /^ *$/ { next }
{ gsub(/«|»/, "") }
/--|\{-|"|[\t\r\f\v]/ { bad("a comment, a text or a mark within a line: " cut($0)) }
/^[^ )}]/ { item[++n] = $0; next }
{ sub(/^ */, ""); item[n] = item[n] " " $0 }
END {
    for (i = 1; i <= n; i++) read_item(i, item[i])
    if (imported != 1) { bad("Offered.antt is not brought in by one line"); unsound = 1 }
    for (i = 1; i <= n; i++) if (item[i] ~ /Offered|Determined/ && item[i] !~ imports) read_statement(i, item[i])
    for (x in of) if (bare[x] != 1 && !(of[x] in twice)) { bad(x " is bound again, for " of[x]); twice[of[x]] = 1 }
    if (!unsound) for (i in about) if (!(about[i] in twice)) print "is", says[i], about[i]
}
