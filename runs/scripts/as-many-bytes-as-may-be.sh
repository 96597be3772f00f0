# As many bytes as may be: a comment behind a step takes all that are left.
printf 'config 1 4 1\ns: space  => space 0 #'
head -c 1048540 /dev/zero | tr '\0' '#'
echo
