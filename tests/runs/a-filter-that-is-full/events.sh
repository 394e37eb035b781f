# Filters of up to 1,024 entries, for later: a message has 200 of them at most here, each permits 0.0.0.0/0 le 32.
awk '
    # add TEXT NUMBER: the text with an entry of that sequence
    function add(text, number) { return text sprintf("00%08x002000", number) }
    function say(text) { printf "orf p1 ffffffffffffffffffffffffffffffff%04x050001000102" "40%04x%s\n", 27 + length(text) / 2, length(text) / 2, text }
    BEGIN {
        print "up p1"
        for (number = 1; number <= 1024; number++) {
            text = add(text, number)
            if (number % 200 == 0 || number == 1024) { say(text); text = "" }
        }
        print "# One more is too many; one in the place of another is not, and neither is one that is added and taken away."
        say(add("", 1025))
        say(add("", 1024))
        say(add("", 1025) sprintf("40%08x002000", 1025))
        say(sprintf("40%08x002000", 1) add("", 1025))
        say(add("", 1))
        say("80" add("", 1))
        say(add("", 2))
    }'
