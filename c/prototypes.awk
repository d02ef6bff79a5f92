# Turns the exported functions of a Rattle source into PROTOTYPE(name, result, parameters), with the types of clothbadger.h. A slice is a pointer and a length.
BEGIN {
    split("u8 uint8_t u16 uint16_t u32 uint32_t u64 uint64_t usize size_t bool bool", plain, " ")
    for (i = 1; i in plain; i += 2) c_type[plain[i]] = plain[i + 1]
    split("Adapter adapter Message message Counts counts Entry entry Request request Settings settings Row row Noted lookup_answer Route route_answer " \
          "Done after Opened after_open Transmitted after_transmit Received after_receive Started after_bus_start", struct, " ")
    for (i = 1; i in struct; i += 2) c_type[struct[i]] = "struct cec_" struct[i + 1]
}
function c(type) {
    if (!(type in c_type)) { print FILENAME ": " type " is not known" >"/dev/stderr"; exit 1 }
    return c_type[type]
}
function parameter(type) {
    if (type ~ /^&mut \[/) return c(substr(type, 7, length(type) - 7)) " *, size_t"
    if (type ~ /^&\[/) return "const " c(substr(type, 3, length(type) - 3)) " *, size_t"
    return c(type)
}
/^pub extern "C" fn / { text = ""; inside = 1 }
inside && /^ *ensures/ {
    sub(/^pub extern "C" fn /, "", text)
    name = substr(text, 1, index(text, "(") - 1)
    count = split(substr(text, index(text, "(") + 1, index(text, ")") - index(text, "(") - 1), part, ",")
    list = ""
    for (i = 1; i <= count; i++)
        if (split(part[i], field, ": ") == 2) list = list ", " parameter(field[2])
    sub(/.*-> */, "", text); sub(/ *$/, "", text)
    print "PROTOTYPE(" name ", " c(text) (list == "" ? ", void" : list) ");"
    inside = 0
}
inside { sub(/^ +/, ""); text = text $0 }
