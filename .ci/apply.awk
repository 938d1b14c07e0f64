# Makes a must-fail edit in a crate's text: -v top=FOLDER of the crate, on the edit. Fails where one of its texts does not stand in its file.
# rt must-fail has the rules: 'file: PATH', then pairs of 'old: TEXT' and 'new: TEXT', each text one line, that stands once in the file.

sub(/^file: /, "") { path = top "/" $0; next }
sub(/^old: /, "") { old = $0; next }
sub(/^new: ?/, "") {
    text = ""
    while ((getline line < path) > 0) text = text line "\n"
    close(path)
    i = index(text, old)
    if (old == "" || !i) { failed = 1; exit }
    printf "%s", substr(text, 1, i - 1) $0 substr(text, i + length(old)) >path
    close(path)
    old = ""
}
END { exit failed }
