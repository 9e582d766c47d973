# Prints the functions that a module exports, out of its bytes, one number a line: the name, and after colons the types
# of the parameters. A module that ends early, or has a type that is not known, gives what was read before.

# The magic number and the version.
NR <= 8 { next }
# A section is a number, its size, and its bytes. Those of custom sections and others are not kept; code comes last.
state == "" {
    section = $1
    if (section > 7) exit
    state = "size"
    size = 0
    factor = 1
    next
}
state == "size" {
    size += ($1 % 128) * factor
    factor *= 128
    if ($1 < 128) begin_section()
    next
}
{
    if (is_kept) byte[length_kept++] = $1
    if (--size == 0) end_section()
}

function begin_section() {
    is_kept = section == 1 || section == 2 || section == 3 || section == 7
    length_kept = 0
    state = "bytes"
    if (size == 0) end_section()
}

function end_section() {
    state = ""
    at = 0
    if (section == 1) read_types()
    if (section == 3) read_functions()
    if (section == 7) print_exports()
}

# An unsigned number in LEB128.
function number(    value, power) {
    value = 0
    for (power = 1; byte[at] >= 128; power *= 128) value += (byte[at++] - 128) * power
    return value + byte[at++] * power
}

# The types of numbers, by their bytes.
function type_name(code) {
    return code == 127 ? "i32" : code == 126 ? "i64" : code == 125 ? "f32" : code == 124 ? "f64" : "?"
}

# A function type is 0x60, the parameters and the results.
function read_types(    count, type, parameters) {
    count = number()
    for (type = 0; type < count && at < length_kept; type++) {
        at++
        for (parameters = number(); parameters > 0 && at < length_kept; parameters--)
            signature[type] = signature[type] ":" type_name(byte[at++])
        at += number()
    }
}

function read_functions(    count, place) {
    count = number()
    for (place = 0; place < count && at < length_kept; place++) type_of[place] = number()
}

# A name, with question marks for what is not a letter, digit or mark of ASCII.
function read_name(    left, text) {
    for (left = number(); left > 0 && at < length_kept; left--) {
        text = text (byte[at] > 32 && byte[at] < 127 ? sprintf("%c", byte[at]) : "?")
        at++
    }
    return text
}

# An export is a name, its kind (0 is a function) and a number.
function print_exports(    count, name, kind) {
    for (count = number(); count > 0 && at < length_kept; count--) {
        name = read_name()
        kind = byte[at++]
        if (kind == 0) print name signature[type_of[number()]]
        else number()
    }
    exit
}
