#!/usr/bin/env bash
# Prints the example in the comment of include/giqapsun.h: the lines from its #include to the end of the comment.
sed -n '/^ \*     #include/,/^ \*\//p' "$(dirname "$0")/../../include/giqapsun.h" | sed '$d; s/^ \* \{0,5\}//'
