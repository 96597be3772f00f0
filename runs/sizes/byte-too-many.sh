# One byte too many, all of one comment.
head -c 1048577 /dev/zero | tr '\0' '#'
