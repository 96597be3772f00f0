# One byte too many, in a comment behind a step.
printf 'config 1 4 1\ns: space  => space 0 #'
head -c 1048541 /dev/zero | tr '\0' '#'
echo
