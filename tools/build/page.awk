# Renders a manual page of docs/man as text of 80 columns: the macros and escapes that these pages have.
function plain(text) {
  gsub(/\\f[BIRP]/, "", text)
  gsub(/\\-/, "-", text)
  gsub(/\\\(dq/, "\"", text)
  gsub(/\\\(ga/, "`", text)
  gsub(/\\&/, "", text)
  gsub(/\\e/, "\\", text)
  return text
}
# The arguments of a macro, joined by this.
function joined(text, between,    result, part) {
  result = ""
  while (match(text, /^ *("[^"]*"|[^ ]+)/)) {
    part = substr(text, 1, RLENGTH)
    text = substr(text, RLENGTH + 1)
    sub(/^ */, "", part)
    if (part ~ /^".*"$/) part = substr(part, 2, length(part) - 2)
    result = result (result == "" ? "" : between) part
  }
  return result
}
function flush() {
  if (line != "") printf "%*s%s\n", indent, "", line
  line = ""
}
function add(text,    words, number, count) {
  count = split(text, words, / +/)
  for (number = 1; number <= count; number++) {
    if (words[number] == "") continue
    if (line != "" && indent + length(line) + 1 + length(words[number]) > 80) flush()
    line = line (line == "" ? "" : " ") words[number]
  }
}
function text_of(source,    macro) {
  if (source !~ /^\./) return source
  macro = source
  sub(/ .*/, "", macro)
  sub(/^\.[A-Z]+ */, "", source)
  return joined(source, macro ~ /^\.(B|I|SH)$/ ? " " : "")
}
/^\.TH/ { next }
/^\.SH/ { flush(); printf "%s%s\n", seen++ ? "\n" : "", plain(text_of($0)); indent = 2; next }
/^\.PP/ { flush(); print ""; indent = 2; next }
/^\.TP/ { flush(); is_tag = 1; next }
/^\.br/ { flush(); next }
/^\.nf/ { flush(); is_verbatim = 1; next }
/^\.fi/ { is_verbatim = 0; next }
is_verbatim { printf "%*s%s\n", indent, "", plain($0); next }
is_tag { indent = 2; add(plain(text_of($0))); flush(); indent = 10; is_tag = 0; next }
{ add(plain(text_of($0))) }
END { flush() }
