# One line too many, all empty.
head -c 65537 /dev/zero | tr '\0' '\n'
