# Writes the C shim of tools/native.sh: for each call whose answer the module hands over in memory, the header's call
# over the module's. It reads the module's text (1) and include/leafanchor.h after the preprocessor (2), and
# stops where the two do not declare the same calls, or where a form is used that is not known to be handed over
# alike on x86-64 and on Arm. The variable `machine` names the machine; the calls that the shim stands before go, with
# their names in the module, into the file that `behind` names.

function stop(words) { print "native: " words >"/dev/stderr"; stopped = 1; exit 1 }

# The kind of a parameter, as the module names it.
function kind_of(parameter) {
    if (parameter ~ /\*/) return "ptr"
    if (parameter ~ /^(const )?u?int8_t [a-z_0-9]+$/) return "i8"
    if (parameter ~ /^(const )?u?int16_t [a-z_0-9]+$/) return "i16"
    if (parameter ~ /^(const )?u?int32_t [a-z_0-9]+$/) return "i32"
    if (parameter ~ /^(const )?(u?int64_t|size_t) [a-z_0-9]+$/) return "i64"
    stop("a parameter of a kind that is not known: " parameter)
}

# The text without bodies: what stands in braces, the innermost first, becomes the end of a declaration.
function without_bodies(text) {
    gsub(/"[^"]*"/, "", text)
    while (match(text, /\{[^{}]*\}/)) text = substr(text, 1, RSTART - 1) ";" substr(text, RSTART + RLENGTH)
    gsub(/__attribute__ ?\(\([^()]*(\([^()]*\)[^()]*)*\)\)|\[\[[^][]*\]\]/, " ", text)
    gsub(/[ \t]+/, " ", text)
    return text
}

# One call of the header: held against the module's, and its shim where its answer is handed over in memory.
function declared(answer, name, parameters,    n, i, part, kinds, names) {
    if (!(name in form)) stop("the header declares " name ", and the module has no such call")
    n = parameters ~ /^ ?(void)? ?$/ ? 0 : split(parameters, part, ",")
    for (i = 1; i <= n; i++) {
        gsub(/^ | $/, "", part[i])
        kinds = kinds " " kind_of(part[i])
        match(part[i], /[A-Za-z_0-9]+$/)
        names = names ", " substr(part[i], RSTART)
    }
    if (form[name] == "ptr") kinds = " ptr" kinds
    if (kinds != taken[name]) stop("the header and the module declare " name " otherwise:" kinds " and" taken[name])
    seen[name] = 1
    if (form[name] == "ptr") in_memory(answer, name, parameters, names)
    else if (form[name] in size) printf "_Static_assert(sizeof(%s) == %d, \"%s\");\n", answer, size[form[name]], answer
    else stop("the module hands over the answer of " name " in a form that is not known: " form[name])
}

# The shim of one call.
function in_memory(answer, name, parameters, names,    module) {
    module = name
    sub(/^leafanchor_/, "leafanchor_module_", module)
    print name " " module >behind
    printf "_Static_assert(sizeof(%s) > 16, \"%s\");\n", answer, answer
    printf "%s *%s(%s *, %s);\n", answer, module, answer, parameters
    printf "%s %s(%s)\n{\n    %s handed_over;\n", answer, name, parameters, answer
    printf "    (void)%s(&handed_over%s);\n    return handed_over;\n}\n", module, names
}

# What fits these two registers is handed over alike; by the size of the whole.
BEGIN {
    size["i32"] = 4; size["i64"] = 8; size["{ i64, i32 }"] = 12; size["{ i64, i64 }"] = 16
    printf "/* Written by tools/native.sh from the header. */\n#include \"leafanchor.h\"\n"
    printf "#ifndef __%s__\n#error \"the C compiler is for another machine\"\n#endif\n", machine
}

FNR == 1 { file++ }

# A call of the module: the form of its answer, and the kinds of what it takes.
file == 1 && /^define .*@leafanchor_/ {
    line = $0
    gsub(/ (noundef|dso_local)/, "", line)
    gsub(/ %[a-z0-9]+/, "", line)
    at = index(line, "@")
    open = index(line, "(")
    name = substr(line, at + 1, open - at - 1)
    form[name] = substr(line, 8, at - 9)
    taken[name] = " " substr(line, open + 1, index(line, ")") - open - 1)
    gsub(/,/, "", taken[name])
}

file == 2 && !/^#/ { header = header " " $0 }

END {
    if (stopped) exit 1
    count = split(without_bodies(header), declaration, ";")
    for (d = 1; d <= count; d++) {
        line = declaration[d]
        if (line ~ /(^| )(static|typedef) / || line !~ /leafanchor_[a-z_0-9]+ ?\(/) continue
        if (line !~ /^ ?([a-z_0-9]+ )+leafanchor_[a-z_0-9]+ ?\([^()]*\) ?$/) stop("a declaration that is not read:" line)
        open = index(line, "(")
        words = split(substr(line, 1, open - 1), word, " ")
        parameters = substr(line, open + 1)
        sub(/\) ?$/, "", parameters)
        declared(word[words - 1], word[words], parameters)
    }
    for (name in form) if (!(name in seen)) stop("the module has " name ", and the header does not declare it")
}
