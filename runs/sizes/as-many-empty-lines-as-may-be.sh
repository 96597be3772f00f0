# As many lines as may be, all empty.
head -c 65536 /dev/zero | tr '\0' '\n'
