# Prints the description of the command `name`, out of the help text, the limits and the command's own text.

FNR == 1 { file++ }
file == 1 && /^[A-Z]/ { section = $0 }
file == 1 && section == "COMMANDS" && $1 == name {
    usage = $0
    sub(/^ +/, "", usage)
    about = usage
    sub(/  .*/, "", usage)
    sub(/^.*   */, "", about)
}
file == 1 && section == "ARGUMENTS" && /^    [A-Z]/ { word = $1 }
file == 1 && section == "ARGUMENTS" && /^    / { meaning[word] = meaning[word] $0 "\n" }
file == 1 && section == "EXIT STATUS" && $1 == 3 { failed = $0 }
file == 2 && /^ / { limit[$1] = $0 "\n" }
# A limit of a command has the command's name before it.
file == 2 && $1 == name ":" { own_limit = substr($0, length(name) + 2) "\n" }
file == 3 && FNR == 1 { printf "USAGE\n    wmlab %s\n\n    %s\n\n", usage, about }
file == 3 && /^EXAMPLE/ { print_words("ARGUMENTS", meaning) }
file == 3
END {
    print failed "\n"
    print_words("LIMITS (at most)", limit)
    printf "%s", own_limit
}

# The lines of the words of the usage, with a title, if there are any.
function print_words(title, lines,    count, words, at, text) {
    count = split(usage, words, /[][ .]+/)
    for (at = 2; at <= count; at++) text = text lines[words[at]]
    if (text != "") printf "%s\n%s%s", title, text, title == "ARGUMENTS" ? "\n" : ""
}
